//! Deliberate errors for the model. The comparison has to catch each one; if it does
//! not, it looks away from some part of the rules.

/// Those that show only outside the comparison domain, so in the rules and not in broker.rs.
pub const OUTSIDE: [Mutation; 2] = [Mutation::PastEndToStart, Mutation::PastEndToLast];

macro_rules! mutations {
    ($($name:ident: $text:literal),* $(,)?) => {
        #[derive(Debug, Clone, Copy, PartialEq, Eq)]
        pub enum Mutation { $($name),* }

        impl Mutation {
            pub const ALL: &'static [(Mutation, &'static str)] =
                &[$((Mutation::$name, $text)),*];
        }
    };
}

mutations! {
    // Document 01: mistakes that a careful programmer makes.
    ClampPermits: "permits clamped at 0",
    DropFromEveryHolder: "a complete entry dropped from every holder",
    IdlePushKeepsNext: "next left alone on an idle push",
    CountAtClose: "redelivery counts raised at close",
    MarkDeleteAtAppend: "mark-delete moved at append",
    // Push.
    CostNotFromBits: "cost from the batch size where bits are stored",
    LedgerBeforeQueue: "redelivery queue served after the ledger",
    GateIgnored: "dispatch with total permits at or below 0",
    SkipComplete: "complete entries passed over in the ledger",
    PlainCostsBatch: "a plain dispatch costs its batch size",
    // Close.
    CloseKeepsTotal: "total not charged at close",
    HeldReversed: "held entries queued in reverse order at close",
    NextNotReduced: "next not reduced after close",
    NextFollowsLeaver: "next moved down when an earlier consumer leaves the ring",
    LeakIgnored: "leak switch ignored",
    // Seek.
    SeekStrictlyGreater: "seek to the first id strictly greater",
    SeekKeepsNacked: "nacked not cleared by seek",
    SeekMovesDispatcher: "seek of a shared consumer moves its dispatcher",
    // Redeliver.
    RedeliverNotHeld: "redeliver of ids that the sender does not hold",
    RedeliverKeepsCount: "redelivery count not raised",
    RepeatedNackOnce: "a repeated plain redeliver taken once",
    // Ack.
    AckNeverAdvances: "an ack that does not advance mark-delete",
    AckTakesOffQueue: "an ack takes complete entries off the queue",
    AckDropsNamedOnly: "the acker drops only the ids it named",
    LatePartialIgnored: "a partial ack after completion makes no bits",
    AbsentWordsAsOnes: "absent ack set words taken as ones",
    BitsForBatchOne: "ack set words heeded for a batch of 1",
    UnknownNotComplete: "an unknown id not made complete",
    // Subscribe and append.
    NoopIgnored: "no-op switch ignored",
    ResubscribeKeepsPermits: "permits kept by a second subscribe",
    JoinAtFront: "a new consumer joins the ring at its front",
    OutsideForgotten: "an outside complete id forgotten when appended",
    // Seek past the end, which broker.rs takes to the start.
    PastEndToStart: "seek past the end gives 0",
    PastEndToLast: "seek past the end gives the last entry",
}
