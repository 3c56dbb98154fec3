//! The C exports as a side of the comparison. build.rs sets one cfg for each symbol it
//! found in the archive; an operation that is not exported has no function here and its
//! calls are left out. Slices cross as pointer and length.
//!
//! Beside the answer this watches what the exports promise about the lent words: those
//! past the needed length never change, a refused call changes none, a list that is only
//! read stays as it is, and push leaves the list past its records alone. Lists that are
//! too short, or cut, are tried first: they have to be refused and to change nothing.

use crate::call::{Call, Group, Kind, OPERATIONS, Outcome, Record, Side, Target, list};
use crate::generator::Allowed;
use crate::state::State;
use crate::words::needed;

macro_rules! export {
    ($has:ident $get:ident $name:ident($($arg:ty),*)) => {
        #[cfg($has)]
        pub fn $get() -> Option<unsafe extern "C" fn(*mut u64, usize $(, $arg)*) -> u64> {
            unsafe extern "C" {
                fn $name(store: *mut u64, len: usize $(, _: $arg)*) -> u64;
            }
            Some($name)
        }

        #[cfg(not($has))]
        pub fn $get() -> Option<unsafe extern "C" fn(*mut u64, usize $(, $arg)*) -> u64> {
            None
        }
    };
}

export!(has_broker_open open broker_open(u64, u64, u64));
export!(has_broker_append append broker_append(u8, u64, u64, u64, u64));
export!(has_broker_subscribe subscribe broker_subscribe(u64, u64, u8, u8));
export!(has_broker_flow flow broker_flow(u64, u32));
export!(has_broker_ack ack broker_ack(u64, *const u64, usize));
export!(has_broker_seek seek broker_seek(u64, u64, u64, u64));
export!(has_broker_redeliver redeliver broker_redeliver(u64, *const u64, usize));
export!(has_broker_close close broker_close(u64));
export!(has_broker_push push broker_push(*mut u64, usize));
export!(has_broker_calls calls broker_calls(*const u64, usize, *mut u64, usize, *mut u64, usize));

/// Which operations the archive exports.
pub fn exported() -> Allowed {
    [
        open().is_some(),
        append().is_some(),
        subscribe().is_some(),
        flow().is_some(),
        ack().is_some(),
        seek().is_some(),
        redeliver().is_some(),
        close().is_some(),
        push().is_some(),
    ]
}

/// The names of the operations that are not exported.
pub fn missing() -> Vec<&'static str> {
    let both = OPERATIONS.iter().zip(exported());
    both.filter(|(_, there)| !there).map(|(name, _)| *name).collect()
}

const THERE: &str = "calls of missing operations are left out";
/// What lent words hold before a call that has not written them.
const FILL: u64 = 0xa5a5_5a5a_0f0f_f0f0;
/// Words lent past the needed length, and past the records of a push list.
const SPARE: usize = 19;
/// More dispatches than any state has due.
const MOST_DUE: usize = 1 << 20;

/// Ack and redeliver.
type ListCall = unsafe extern "C" fn(*mut u64, usize, u64, *const u64, usize) -> u64;

pub struct CSide {
    store: Vec<u64>,
    /// The store as it was before the present call.
    before: Vec<u64>,
    needed: usize,
    /// How many pushes there were, so that their lists are of many lengths.
    pushes: usize,
}

impl CSide {
    pub fn new() -> Self {
        CSide { store: Vec::new(), before: Vec::new(), needed: 0, pushes: 0 }
    }

    /// A store of the right length; one that was used before stays as it is, since opening
    /// has to take any words.
    fn lend(&mut self, entries: u64) {
        self.needed = needed(entries);
        if self.store.len() != self.needed + SPARE {
            self.store = vec![FILL; self.needed + SPARE];
        }
    }

    fn answer(&mut self, call: &Call) -> u64 {
        let (store, len) = (self.store.as_mut_ptr(), self.store.len());
        // Each pointer is to a vector that outlives the call, with its length beside it.
        unsafe {
            match call {
                Call::Open { entries, leak, noop } => {
                    open().expect(THERE)(store, len, *entries, *leak, *noop)
                }
                Call::Append { topic, ledger, entry, handle, batch } => {
                    append().expect(THERE)(store, len, *topic, *ledger, *entry, *handle, *batch)
                }
                Call::Subscribe { consumer, kind, topic, subscription } => {
                    let kind = u64::from(*kind == Kind::Shared);
                    subscribe().expect(THERE)(store, len, *consumer, kind, *topic, *subscription)
                }
                Call::Flow { consumer, grant } => {
                    flow().expect(THERE)(store, len, *consumer, *grant)
                }
                Call::Seek { consumer, target } => {
                    let (kind, ledger, entry) = match target {
                        Target::Start => (0, 0, 0),
                        Target::Id(ledger, entry) => (1, *ledger, *entry),
                    };
                    seek().expect(THERE)(store, len, *consumer, kind, ledger, entry)
                }
                Call::Close { consumer } => close().expect(THERE)(store, len, *consumer),
                Call::Ack { .. } | Call::Redeliver { .. } | Call::Push => {
                    unreachable!("calls with a list have their own functions")
                }
            }
        }
    }

    /// First with the list cut by its last word, which 10 or 4 has to refuse, then whole.
    fn with_list(&mut self, call: ListCall, consumer: u64, groups: &[Group]) -> Outcome {
        let words = list(groups);
        let mut lent = words.clone();
        let mut answer = |store: &mut [u64], m: usize| {
            // Each pointer is to a vector that outlives the call, with a length within it.
            let answer =
                unsafe { call(store.as_mut_ptr(), store.len(), consumer, lent.as_mut_ptr(), m) };
            apart(answer)
        };
        let shorter = words.len().checked_sub(1);
        let cut = shorter.map(|m| (answer(&mut self.store, m), self.store == self.before));
        let outcome = answer(&mut self.store, words.len());
        if lent != words {
            return broken("a list that is only read changed");
        }
        let due = if outcome.number == 4 { 4 } else { 10 };
        match cut {
            Some((cut, same)) if cut != Outcome::refused(due) || !same => {
                broken("a cut list was not refused, or changed something")
            }
            _ => outcome,
        }
    }

    /// First with a list for no record, to learn the number due by 15, then with a list that
    /// is one word short, then with just enough room, or with some words or a record more.
    /// With nothing due the first call is the push.
    fn push(&mut self) -> Outcome {
        self.pushes += 1;
        let mut words: Vec<u64> = vec![FILL; self.pushes % 13];
        let mut answer = self.push_into(&mut words);
        if answer != 0 && (self.store != self.before || words.iter().any(|w| *w != FILL)) {
            return broken("push refused by 15 changed something");
        }
        if answer % 256 == 15 && answer / 256 > 0 {
            let due = (answer / 256) as usize;
            if due > MOST_DUE {
                return broken("push said an impossible number due");
            }
            let mut short = vec![FILL; 13 * due - 1];
            let again = self.push_into(&mut short);
            if self.store != self.before || again != answer || short.iter().any(|w| *w != FILL) {
                return broken("push refused by 15 changed something, or by another number due");
            }
            words = vec![FILL; 13 * due + [0, SPARE % 13, SPARE][self.pushes % 3]];
            answer = self.push_into(&mut words);
        }
        let outcome = apart(answer);
        let made = outcome.value as usize;
        if outcome.number != 0 || made > words.len() / 13 {
            return outcome;
        }
        if words[13 * made..].iter().any(|w| *w != FILL) {
            return broken("push wrote past its records");
        }
        let records: Vec<Record> = words[..13 * made].chunks(13).map(Record::from_words).collect();
        if records.iter().zip(words.chunks(13)).any(|(r, w)| r.words() != *w) {
            return broken("a record has words past its ack set or a count too wide");
        }
        Outcome::pushed(records)
    }

    fn push_into(&mut self, words: &mut [u64]) -> u64 {
        let (store, len) = (self.store.as_mut_ptr(), self.store.len());
        // Both pointers are to vectors that outlive the call.
        unsafe { push().expect(THERE)(store, len, words.as_mut_ptr(), words.len()) }
    }
}

/// The value is signed: an arithmetic shift gives it back.
fn apart(answer: u64) -> Outcome {
    Outcome { value: (answer as i64) >> 8, number: (answer % 256) as u8, records: Vec::new() }
}

/// No call answers this, so that it always counts as a difference. What broke is said
/// once, not again while the script is being cut down.
fn broken(what: &str) -> Outcome {
    static SAID: std::sync::Once = std::sync::Once::new();
    SAID.call_once(|| println!("C side: {what}"));
    Outcome { value: -1, number: 255, records: Vec::new() }
}

impl Side for CSide {
    fn call(&mut self, call: &Call) -> Outcome {
        if let Call::Open { entries, .. } = call {
            self.lend(*entries);
        }
        self.before.clone_from(&self.store);
        let outcome = match call {
            Call::Push => self.push(),
            Call::Ack { consumer, groups } => {
                self.with_list(ack().expect(THERE), *consumer, groups)
            }
            Call::Redeliver { consumer, groups } => {
                self.with_list(redeliver().expect(THERE), *consumer, groups)
            }
            _ => apart(self.answer(call)),
        };
        if outcome.number != 0 && self.store != self.before {
            return broken("a refused call changed the store");
        }
        if self.store[self.needed..].iter().any(|w| *w != FILL) {
            return broken("words past the needed length changed");
        }
        outcome
    }

    /// The words say it: see `words`.
    fn state(&self) -> Option<State> {
        None
    }

    fn words(&self) -> Option<&[u64]> {
        Some(&self.store[..self.needed])
    }
}
