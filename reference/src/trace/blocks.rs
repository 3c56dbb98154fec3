//! Traces handed over in blocks: what the player prints may not depend on where the blocks end.
//!
//! The traces for the borders have an ack of the most words across each border, one border after the
//! other at each offset that could matter. As a file a trace is read in blocks of the player's own
//! length, so that the borders are known: multiples of 65,536 from the start, or, for a reader that
//! moves what is cut off to the front of its buffer, 65,536 after the start of the record that was cut.

use super::bytes::{HEADER, written};
use super::on_model::play;
use super::program::{Feed, Runs, Stored, WHOLE};
use super::random;
use crate::call::{Call, Group, Kind, Target};
use crate::rng::Rng;

const BLOCK: usize = 65_536;
/// The groups of the longest list, and the words of its longest group.
const GROUPS: usize = 64;
const WORDS: usize = 16;
/// The bytes of a push and of a close.
const PUSH: usize = 3;
const CLOSE: usize = 11;
/// From so many bytes on small records fill any gap.
const LEAST: usize = 60;

/// Where in a record a word begins, the consumer being word 0.
fn word(at: usize) -> usize {
    3 + 8 * at
}

/// Where in a long record a group begins.
fn group(at: usize) -> usize {
    word(1 + at * (3 + WORDS))
}

/// The length of a long record whose last group has so many words.
fn length(last: usize) -> usize {
    group(GROUPS - 1) + 8 * (3 + last)
}

/// How many words the last group of a record across a border has, and how many of the record's bytes
/// stand before the border: in its head and first words, in the count and the first ack word of a
/// group half way, in its last two words, and at both ends. With 16 words in the last group the
/// record is the longest; with 4 its last word counts in the ack.
fn places() -> Vec<(usize, usize)> {
    let first = 0..=word(2) + 2;
    let middle = group(GROUPS / 2) + 16..group(GROUPS / 2) + 32;
    let last = |words| length(words) - 17..=length(words);
    let longest = first.chain(middle).chain(last(WORDS)).map(|offset| (WORDS, offset));
    longest.chain(last(4).map(|offset| (4, offset))).collect()
}

/// Consumer 7 holds 32 batches; consumer 8 is there to acknowledge them.
fn before() -> Vec<Call> {
    let kind = Kind::Shared;
    let subscribe = |consumer| Call::Subscribe { consumer, kind, topic: 1, subscription: 1 };
    let append = |entry| Call::Append { topic: 1, ledger: 1, entry, handle: entry, batch: 256 };
    let mut calls: Vec<Call> = (0..32).map(append).collect();
    calls.extend([subscribe(7), subscribe(8), Call::Flow { consumer: 7, grant: u32::MAX }]);
    calls.push(Call::Push);
    calls
}

/// A long list over every entry twice, its words with most bits set.
fn long_list(rng: &mut Rng, last: usize) -> Vec<Group> {
    let mut list: Vec<Group> = (0..GROUPS as u64)
        .map(|i| {
            let words = (0..WORDS).map(|_| rng.next() | rng.next() | rng.next()).collect();
            Group { ledger: 1, entry: i % 32, words }
        })
        .collect();
    list[GROUPS - 1].words.truncate(last);
    list
}

/// Completes every entry, so that the next ack in part begins with fresh bits.
fn complete() -> Call {
    let group = |entry| Group { ledger: 1, entry, words: Vec::new() };
    Call::Ack { consumer: 8, groups: (0..32).map(group).collect() }
}

/// Small records of exactly so many bytes, which are at least 20.
fn exactly(mut bytes: usize) -> Vec<Call> {
    let mut calls = Vec::new();
    let small = [
        Call::Flow { consumer: 7, grant: 0 },
        Call::Seek { consumer: 7, target: Target::Start },
        Call::Seek { consumer: 8, target: Target::Id(1, 9) },
    ];
    for call in small.iter().cycle() {
        if bytes <= LEAST {
            break;
        }
        bytes -= written(call).len();
        calls.push(call.clone());
    }
    while !bytes.is_multiple_of(PUSH) {
        calls.push(Call::Close { consumer: 99 });
        bytes -= CLOSE;
    }
    calls.extend(vec![Call::Push; bytes / PUSH]);
    calls
}

/// A trace that grows.
struct Growing {
    bytes: Vec<u8>,
    rng: Rng,
}

impl Growing {
    fn add(&mut self, calls: &[Call]) {
        calls.iter().for_each(|call| self.bytes.extend(written(call)));
    }

    /// Records up to a place: as many long ones as go, the completing ack, small ones.
    fn fill(&mut self, place: usize) {
        let complete = complete();
        let least = written(&complete).len() + LEAST;
        while place - self.bytes.len() >= length(WORDS) + least {
            let groups = long_list(&mut self.rng, WORDS);
            self.add(&[Call::Ack { consumer: 8, groups }]);
        }
        self.add(&[complete]);
        self.add(&exactly(place - self.bytes.len()));
    }

    /// An ack across a border, then 7 hands all back and is handed it again: what was read of the ack
    /// shows in the permits.
    fn across(&mut self, last: usize) {
        let groups = long_list(&mut self.rng, last);
        self.add(&[Call::Ack { consumer: 8, groups }]);
        let groups = long_list(&mut self.rng, WORDS);
        self.add(&[Call::Redeliver { consumer: 7, groups }, Call::Push]);
    }
}

/// A trace with a long record across each border, at the places in turn. `moved`: a reader moves what
/// is cut off to the front.
fn across_borders(seed: u64, moved: bool) -> Vec<u8> {
    let mut trace = Growing { bytes: HEADER.to_vec(), rng: Rng::new(seed) };
    trace.add(&before());
    let mut border = BLOCK;
    for (last, offset) in places() {
        trace.fill(border - offset);
        assert_eq!(trace.bytes.len(), border - offset, "the record stands at its place");
        trace.across(last);
        let cut = offset < length(last);
        border += if moved && cut { BLOCK - offset } else { BLOCK };
    }
    trace.bytes
}

/// The same bytes in pieces of every kind, and as a file.
fn every_way(runs: &mut Runs, name: &str, bytes: &[u8], small: bool) -> Result<(), String> {
    let played = play(bytes);
    let stored = Stored::new(bytes)?;
    let mut ways = vec![WHOLE, Feed::File(stored.path())];
    ways.extend([BLOCK - 1, BLOCK, BLOCK + 1, 4096].map(Feed::Pieces));
    ways.extend([1, 2, 3].map(Feed::Random));
    if small {
        ways.extend([1, 3, 7, 8, 11].map(Feed::Pieces));
    }
    ways.into_iter().try_for_each(|feed| runs.as_played(name, bytes, feed, &played))
}

pub fn compare(runs: &mut Runs, seed: u64, good: &[u8]) -> Result<(), String> {
    runs.as_played("byte by byte", good, Feed::Slowly, &play(good))?;
    let trace = random::trace(&mut Rng::new(seed), 3000);
    every_way(runs, "3,000 records", &trace, true)?;
    every_way(runs, "long records across borders", &across_borders(seed, false), false)?;
    every_way(runs, "long records across moved borders", &across_borders(seed, true), false)
}

#[cfg(test)]
mod tests {
    use super::*;
    use crate::trace::bytes::MOST_WORDS;

    #[test]
    fn small_records_fill_any_gap() {
        for gap in 20..400 {
            let bytes: usize = exactly(gap).iter().map(|call| written(call).len()).sum();
            assert_eq!(bytes, gap);
        }
    }

    #[test]
    fn the_longest_record_has_the_most_words() {
        assert_eq!(length(WORDS), word(MOST_WORDS));
        let groups = long_list(&mut Rng::new(1), 4);
        assert_eq!(written(&Call::Ack { consumer: 8, groups }).len(), length(4));
    }

    #[test]
    fn a_record_stands_across_each_border() {
        for moved in [false, true] {
            let bytes = across_borders(1, moved);
            let tally = play(&bytes).tally;
            assert_eq!((tally.bad, tally.refusals[0]), (0, tally.records));
            assert!(tally.dispatches >= 32 * places().len() && tally.largest == 32);
        }
    }
}
