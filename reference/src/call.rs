//! The calls of document 01 and their outcomes, in the words of DESIGN's exports: what is
//! handed to every side that is compared, and what comes back from it.

/// One group of an ack or redeliver list: a message id and its ack set words.
#[derive(Debug, Clone, PartialEq, Eq)]
pub struct Group {
    pub ledger: u64,
    pub entry: u64,
    pub words: Vec<u64>,
}

#[derive(Debug, Clone, Copy, PartialEq, Eq)]
pub enum Kind {
    Plain,
    Shared,
}

#[derive(Debug, Clone, Copy, PartialEq, Eq)]
pub enum Target {
    Start,
    Id(u64, u64),
}

#[derive(Debug, Clone, PartialEq, Eq)]
pub enum Call {
    Open { entries: u64, leak: u64, noop: u64 },
    Append { topic: u8, ledger: u64, entry: u64, handle: u64, batch: u64 },
    Subscribe { consumer: u64, kind: Kind, topic: u8, subscription: u8 },
    Flow { consumer: u64, grant: u32 },
    Ack { consumer: u64, groups: Vec<Group> },
    Seek { consumer: u64, target: Target },
    Redeliver { consumer: u64, groups: Vec<Group> },
    Close { consumer: u64 },
    Push,
}

/// The names of the operations; a call's place in this list is its kind in the vectors.
pub const OPERATIONS: [&str; 9] =
    ["open", "append", "subscribe", "flow", "ack", "seek", "redeliver", "close", "push"];

impl Call {
    pub fn operation(&self) -> usize {
        match self {
            Call::Open { .. } => 0,
            Call::Append { .. } => 1,
            Call::Subscribe { .. } => 2,
            Call::Flow { .. } => 3,
            Call::Ack { .. } => 4,
            Call::Seek { .. } => 5,
            Call::Redeliver { .. } => 6,
            Call::Close { .. } => 7,
            Call::Push => 8,
        }
    }

    /// The argument words after the store, in the order of the exports.
    pub fn words(&self) -> Vec<u64> {
        match self {
            Call::Open { entries, leak, noop } => vec![*entries, *leak, *noop],
            Call::Append { topic, ledger, entry, handle, batch } => {
                vec![u64::from(*topic), *ledger, *entry, *handle, *batch]
            }
            Call::Subscribe { consumer, kind, topic, subscription } => {
                let kind = u64::from(*kind == Kind::Shared);
                vec![*consumer, kind, u64::from(*topic), u64::from(*subscription)]
            }
            Call::Flow { consumer, grant } => vec![*consumer, u64::from(*grant)],
            Call::Ack { consumer, groups } | Call::Redeliver { consumer, groups } => {
                let mut words = vec![*consumer];
                words.extend(list(groups));
                words
            }
            Call::Seek { consumer, target: Target::Start } => vec![*consumer, 0, 0, 0],
            Call::Seek { consumer, target: Target::Id(ledger, entry) } => {
                vec![*consumer, 1, *ledger, *entry]
            }
            Call::Close { consumer } => vec![*consumer],
            Call::Push => Vec::new(),
        }
    }
}

/// A list in flat words: ledger, entry, n and n words for each group.
pub fn list(groups: &[Group]) -> Vec<u64> {
    let mut words = Vec::new();
    for group in groups {
        words.extend([group.ledger, group.entry, group.words.len() as u64]);
        words.extend(&group.words);
    }
    words
}

/// One dispatch.
#[derive(Debug, Clone, PartialEq, Eq)]
pub struct Record {
    pub consumer: u64,
    pub ledger: u64,
    pub entry: u64,
    pub handle: u64,
    pub batch: u64,
    pub ack_set: Vec<u64>,
    pub redelivery_count: u32,
    pub cost: i64,
    /// The consumer's permits after this dispatch.
    pub permits: i64,
}

impl Record {
    /// The 13 words of document 01.
    pub fn words(&self) -> [u64; 13] {
        let mut words = [0; 13];
        words[..5].copy_from_slice(&[
            self.consumer,
            self.ledger,
            self.entry,
            self.handle,
            self.batch,
        ]);
        words[5] = self.ack_set.len() as u64;
        for (i, word) in self.ack_set.iter().take(4).enumerate() {
            words[6 + i] = *word;
        }
        words[10] = u64::from(self.redelivery_count);
        words[11] = self.cost as u64;
        words[12] = self.permits as u64;
        words
    }

    pub fn from_words(words: &[u64]) -> Record {
        let count = usize::try_from(words[5]).unwrap_or(4).min(4);
        Record {
            consumer: words[0],
            ledger: words[1],
            entry: words[2],
            handle: words[3],
            batch: words[4],
            ack_set: words[6..6 + count].to_vec(),
            redelivery_count: words[10] as u32,
            cost: words[11] as i64,
            permits: words[12] as i64,
        }
    }
}

/// What a call gave: the value, the refusal's number or 0, and push's records in the order
/// in which the side gave them.
#[derive(Debug, Clone, PartialEq, Eq)]
pub struct Outcome {
    pub value: i64,
    pub number: u8,
    pub records: Vec<Record>,
}

impl Outcome {
    pub fn done(value: i64) -> Self {
        Outcome { value, number: 0, records: Vec::new() }
    }

    pub fn refused(number: u8) -> Self {
        Outcome { value: 0, number, records: Vec::new() }
    }

    pub fn pushed(records: Vec<Record>) -> Self {
        Outcome { value: records.len() as i64, number: 0, records }
    }

    /// The records by ascending consumer, in dispatch order within a consumer: all the
    /// order that broker.rs keeps.
    pub fn grouped(&self) -> Vec<Record> {
        let mut records = self.records.clone();
        records.sort_by_key(|r| r.consumer);
        records
    }

    /// value × 256 + number, modulo 2^64.
    pub fn answer(&self) -> u64 {
        (self.value as u64).wrapping_mul(256).wrapping_add(u64::from(self.number))
    }
}

/// A broker under comparison.
pub trait Side {
    fn call(&mut self, call: &Call) -> Outcome;

    /// The whole state, where the side can show it.
    fn state(&self) -> Option<crate::state::State>;

    /// The needed words of the side's store, where it has one.
    fn words(&self) -> Option<&[u64]> {
        None
    }
}
