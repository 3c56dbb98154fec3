//! The bytes of a trace: a writer of records from calls, and a reader after document 02's text
//! (request A4) and nothing else, so that it is a second opinion on what the player reads.

use crate::call::{Call, Group, Kind, Target};

/// The mark and the version.
pub const HEADER: [u8; 5] = *b"HBT\x00\x01";

/// The most words of a record: a consumer and a list of 64 groups with 16 words each.
pub const MOST_WORDS: usize = 1217;

/// A record with any kind and any words.
pub fn record(kind: u8, words: &[u64]) -> Vec<u8> {
    let count = u16::try_from(words.len()).expect("a count of 16 bits");
    let mut bytes = headed(kind, count);
    bytes.extend(words.iter().flat_map(|word| word.to_be_bytes()));
    bytes
}

/// A kind and a count, without the words.
pub fn headed(kind: u8, count: u16) -> Vec<u8> {
    let [high, low] = count.to_be_bytes();
    vec![kind, high, low]
}

/// The kind and the words of a call's record. An open has none: a trace starts with the store opened.
pub fn parts(call: &Call) -> (u8, Vec<u64>) {
    let kind = call.operation() as u8;
    match call {
        Call::Open { .. } => panic!("a trace has no open"),
        // The words of the C export have an id beside the start too.
        Call::Seek { consumer, target: Target::Start } => (kind, vec![*consumer, 0]),
        _ => (kind, call.words()),
    }
}

pub fn written(call: &Call) -> Vec<u8> {
    let (kind, words) = parts(call);
    record(kind, &words)
}

/// The header and the records of the calls.
pub fn trace(calls: &[Call]) -> Vec<u8> {
    let mut bytes = HEADER.to_vec();
    bytes.extend(calls.iter().flat_map(written));
    bytes
}

/// What a record asks for.
#[derive(Debug, Clone, PartialEq, Eq)]
pub enum Step {
    Call(Call),
    /// An ack or redeliver of this consumer whose list is no row of whole groups.
    NoGroups(u64),
}

/// What stands at the front of some bytes.
#[derive(Debug, PartialEq, Eq)]
pub enum Front<'a> {
    End,
    /// No record: 18.
    Bad,
    /// A record's kind, what it asks for, and the bytes after it.
    Record(u8, Step, &'a [u8]),
}

/// A number, high byte first.
fn number(bytes: &[u8]) -> u64 {
    bytes.iter().fold(0, |number, byte| number * 256 + u64::from(*byte))
}

/// The bytes after a header that is right.
pub fn after_header(bytes: &[u8]) -> Option<&[u8]> {
    let (mark, rest) = bytes.split_at_checked(3)?;
    let (version, rest) = rest.split_at_checked(2)?;
    (mark == b"HBT" && number(version) == 1).then_some(rest)
}

pub fn front(bytes: &[u8]) -> Front<'_> {
    if bytes.is_empty() {
        return Front::End;
    }
    let Some((kind, words, rest)) = split(bytes) else { return Front::Bad };
    match step(kind, &words) {
        Some(step) => Front::Record(kind, step, rest),
        None => Front::Bad,
    }
}

/// The kind and the words of the first record, and the bytes after it, unless it is cut off or has
/// too many words.
fn split(bytes: &[u8]) -> Option<(u8, Vec<u64>, &[u8])> {
    let (kind, rest) = bytes.split_first()?;
    let (count, rest) = rest.split_at_checked(2)?;
    let count = number(count) as usize;
    if count > MOST_WORDS {
        return None;
    }
    let (words, rest) = rest.split_at_checked(8 * count)?;
    Some((*kind, words.chunks(8).map(number).collect(), rest))
}

/// The bytes at the front that a record which is none would take by its own count.
pub fn stated(bytes: &[u8]) -> usize {
    let words = bytes.get(1..3).map_or(0, |count| 8 * number(count) as usize);
    bytes.len().min(3 + words)
}

/// What the words of a kind ask for, unless they fit no kind or one is too wide for its field.
pub fn step(kind: u8, words: &[u64]) -> Option<Step> {
    let call = match (kind, words) {
        (1, [topic, ledger, entry, handle, batch]) => Call::Append {
            topic: u8::try_from(*topic).ok()?,
            ledger: *ledger,
            entry: *entry,
            handle: *handle,
            batch: *batch,
        },
        (2, [consumer, kind @ (0 | 1), topic, subscription]) => Call::Subscribe {
            consumer: *consumer,
            kind: if *kind == 0 { Kind::Plain } else { Kind::Shared },
            topic: u8::try_from(*topic).ok()?,
            subscription: u8::try_from(*subscription).ok()?,
        },
        (3, [consumer, grant]) => {
            Call::Flow { consumer: *consumer, grant: u32::try_from(*grant).ok()? }
        }
        (4 | 6, [consumer, list @ ..]) => return Some(with_list(kind, *consumer, list)),
        (5, [consumer, 0]) => Call::Seek { consumer: *consumer, target: Target::Start },
        (5, [consumer, 1, ledger, entry]) => {
            Call::Seek { consumer: *consumer, target: Target::Id(*ledger, *entry) }
        }
        (7, [consumer]) => Call::Close { consumer: *consumer },
        (8, []) => Call::Push,
        _ => return None,
    };
    Some(Step::Call(call))
}

fn with_list(kind: u8, consumer: u64, list: &[u64]) -> Step {
    match groups(list) {
        None => Step::NoGroups(consumer),
        Some(groups) if kind == 4 => Step::Call(Call::Ack { consumer, groups }),
        Some(groups) => Step::Call(Call::Redeliver { consumer, groups }),
    }
}

/// The groups of a list, if it ends with the last one.
fn groups(mut list: &[u64]) -> Option<Vec<Group>> {
    let mut groups = Vec::new();
    while !list.is_empty() {
        let (head, rest) = list.split_at_checked(3)?;
        let (words, rest) = rest.split_at_checked(usize::try_from(head[2]).ok()?)?;
        groups.push(Group { ledger: head[0], entry: head[1], words: words.to_vec() });
        list = rest;
    }
    Some(groups)
}

#[cfg(test)]
mod tests {
    use super::*;
    use crate::generator::{ALL, Wanted, sequence};
    use crate::rng::Rng;

    #[test]
    fn the_bytes_of_a_flow() {
        let bytes = trace(&[Call::Flow { consumer: 7, grant: 258 }]);
        let words = [0, 0, 0, 0, 0, 0, 0, 7, 0, 0, 0, 0, 0, 0, 1, 2];
        assert_eq!(bytes[..8], [0x48, 0x42, 0x54, 0, 1, 3, 0, 2]);
        assert_eq!(bytes[8..], words);
    }

    #[test]
    fn a_call_reads_back_as_it_was_written() {
        let wanted = Wanted { inside: false, ..Wanted::calls(3000, ALL) };
        let made = sequence(&mut Rng::new(4), &wanted);
        let bytes = trace(&made[1..]);
        let mut rest = after_header(&bytes).expect("a header");
        for call in &made[1..] {
            let Front::Record(kind, step, after) = front(rest) else { panic!("{call:?}") };
            assert_eq!((usize::from(kind), step), (call.operation(), Step::Call(call.clone())));
            rest = after;
        }
        assert_eq!(front(rest), Front::End);
    }

    #[test]
    fn a_header_is_the_mark_and_version_1() {
        assert_eq!(after_header(b"HBT\x00\x01"), Some(&[][..]));
        for wrong in [&b"HBT\x00"[..], b"", b"HBU\x00\x01", b"HBT\x01\x01", b"HBT\x01\x00"] {
            assert_eq!(after_header(wrong), None);
        }
    }

    #[test]
    fn what_fits_no_kind_or_field_is_bad() {
        let bad: [(u8, &[u64]); 12] = [
            (0, &[]),
            (9, &[]),
            (1, &[256, 1, 0, 0, 0]),
            (1, &[1, 1, 0, 0]),
            (2, &[7, 2, 1, 1]),
            (2, &[7, 1, 1, 256]),
            (3, &[7, 1 << 32]),
            (4, &[]),
            (5, &[7, 0, 0, 0]),
            (5, &[7, 1]),
            (7, &[7, 7]),
            (8, &[0]),
        ];
        for (kind, words) in bad {
            assert_eq!(front(&record(kind, words)), Front::Bad, "{kind} {words:?}");
        }
        assert_eq!(front(&record(4, &[0; MOST_WORDS + 1])), Front::Bad);
    }

    #[test]
    fn a_list_of_any_words_is_a_record() {
        for words in [&[7, 1][..], &[7, 1, 0, u64::MAX], &[7, 1, 0, 2, 5], &[7; MOST_WORDS]] {
            for kind in [4, 6] {
                let bytes = record(kind, words);
                assert_eq!(front(&bytes), Front::Record(kind, Step::NoGroups(7), &[]));
            }
        }
    }

    #[test]
    fn a_bad_record_ends_by_its_count() {
        assert_eq!(stated(&[9, 0, 0, 8, 0]), 3);
        assert_eq!(stated(&[9, 0, 1, 8, 0]), 5);
        assert_eq!(stated(&[9, 0]), 2);
    }

    #[test]
    fn every_cut_of_a_record_is_bad() {
        let bytes = record(5, &[7, 1, 1, 0]);
        (1..bytes.len()).for_each(|cut| assert_eq!(front(&bytes[..cut]), Front::Bad));
    }
}
