//! The words of a store that spell the model's state, written from docs/STORE.md alone.

use crate::call::Kind;
use crate::model::{Consumer, Dispatcher, Mark, Model, Topic};

const TAG: u64 = 0x5a51_4453_5031_0002;
/// What is added to permits.
const EXCESS: i64 = 1 << 62;

/// The words that a store for so many entries per topic needs.
pub fn needed(entries: u64) -> usize {
    4096 + 128 * entries as usize
}

/// A list at a place: the count, then the elements.
fn put<const N: usize>(words: &mut [u64], at: usize, list: impl Iterator<Item = [u64; N]>) {
    let mut count = 0;
    for element in list {
        words[at + 1 + N * count..][..N].copy_from_slice(&element);
        count += 1;
    }
    words[at] = count as u64;
}

fn permits(permits: i64) -> u64 {
    (permits + EXCESS) as u64
}

fn place(position: &usize) -> [u64; 1] {
    [*position as u64]
}

fn consumer(words: &mut [u64], c: &Consumer) {
    words[..6].copy_from_slice(&[
        c.id,
        u64::from(c.topic),
        u64::from(c.subscription),
        u64::from(c.kind == Kind::Shared),
        permits(c.permits),
        c.cursor as u64,
    ]);
    put(words, 6, c.nacked.iter().map(place));
}

fn topic(words: &mut [u64], t: &Topic) {
    words[0] = u64::from(t.number);
    put(words, 3, t.messages.iter().map(|m| [m.ledger, m.entry, m.handle, m.batch]));
}

fn mark(mark: &Mark) -> [u64; 6] {
    let [a, b, c, d] = mark.bits.unwrap_or([0; 4]);
    [u64::from(mark.fully_acked), u64::from(mark.redelivery_count), a, b, c, d]
}

fn dispatcher(words: &mut [u64], entries: usize, d: &Dispatcher) {
    words[..6].copy_from_slice(&[
        u64::from(d.topic),
        u64::from(d.subscription),
        d.next as u64,
        d.cursor as u64,
        d.mark_delete as u64,
        permits(d.total_available_permits),
    ]);
    put(words, 11, d.attached.iter().map(|id| [*id]));
    // A set, which has one spelling: ascending.
    let mut outside = d.outside.clone();
    outside.sort_unstable();
    put(words, 44, outside.iter().map(|(ledger, entry)| [*ledger, *entry]));
    put(words, 173, d.redelivery.iter().map(place));
    put(words, 174 + entries, d.in_flight.iter().map(|(holder, p)| [*holder, *p as u64]));
    put(words, 175 + 3 * entries, d.marks.iter().map(mark));
}

/// Makes `words` the needed words; its room is used again.
pub fn encode(model: &Model, words: &mut Vec<u64>) {
    let entries = model.entries as usize;
    words.clear();
    words.resize(needed(model.entries), 0);
    words[..4].copy_from_slice(&[TAG, model.entries, u64::from(model.leak), u64::from(model.noop)]);
    words[16] = model.consumers.len() as u64;
    for (i, c) in model.consumers.iter().enumerate() {
        consumer(&mut words[17 + 72 * i..], c);
    }
    words[2321] = model.topics.len() as u64;
    for (i, t) in model.topics.iter().enumerate() {
        topic(&mut words[2322 + (4 + 4 * entries) * i..], t);
    }
    words[2354 + 32 * entries] = model.dispatchers.len() as u64;
    for (i, d) in model.dispatchers.iter().enumerate() {
        dispatcher(&mut words[2355 + 32 * entries + (176 + 9 * entries) * i..], entries, d);
    }
}

#[cfg(test)]
mod tests {
    use super::*;
    use crate::call::{Call, Side};

    /// The small store that docs/STORE.md has word by word.
    #[test]
    fn the_small_store() {
        let mut model = Model::new();
        for call in [
            Call::Open { entries: 32, leak: 0, noop: 0 },
            Call::Append { topic: 1, ledger: 1, entry: 0, handle: 500, batch: 3 },
            Call::Subscribe { consumer: 7, kind: Kind::Shared, topic: 1, subscription: 1 },
            Call::Flow { consumer: 7, grant: 10 },
            Call::Push,
        ] {
            model.call(&call);
        }
        let seven = 4_611_686_018_427_387_911;
        let expected = [
            (0, TAG),
            (1, 32),
            (16, 1),
            (17, 7),
            (18, 1),
            (19, 1),
            (20, 1),
            (21, seven),
            (2321, 1),
            (2322, 1),
            (2325, 1),
            (2326, 1),
            (2328, 500),
            (2329, 3),
            (3378, 1),
            (3379, 1),
            (3380, 1),
            (3382, 1),
            (3384, seven),
            (3390, 1),
            (3391, 7),
            (3585, 1),
            (3586, 7),
            (3650, 1),
        ];
        let mut words = vec![9];
        encode(&model, &mut words);
        let found: Vec<(usize, u64)> =
            words.iter().copied().enumerate().filter(|(_, word)| *word != 0).collect();
        assert_eq!(words.len(), 8192);
        assert_eq!(found, expected);
    }
}
