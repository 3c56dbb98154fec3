//! Traces at the limits of the format and of the rules, each with the answer that the papers give, so
//! that the model is held to it as well as the player.

use super::bytes::{HEADER, MOST_WORDS, headed, record, trace, written};
use super::on_model::play;
use super::program::Runs;
use crate::call::{Call, Group, Kind, Target, list};
use crate::limits::{close, flow, shared};

/// What the papers say of the record.
#[derive(Debug, Clone, Copy, PartialEq, Eq)]
enum Says {
    /// The line `bad` with its number.
    Bad,
    /// Its refusal or 0, and the dispatches made.
    Answer(u8, usize),
}

use Says::{Answer, Bad};

const DONE: Says = Answer(0, 0);
const TOP: u64 = u64::MAX;

/// A record, the calls before it, and what the papers say of it.
struct Case {
    name: String,
    before: Vec<Call>,
    bytes: Vec<u8>,
    says: Says,
}

/// A list of cases that grows.
#[derive(Default)]
struct Cases(Vec<Case>);

impl Cases {
    /// A record of any words, on the store as it was opened.
    fn words(&mut self, name: &str, kind: u8, words: &[u64], says: Says) {
        self.after(name, &[], record(kind, words), says);
    }

    fn call(&mut self, name: &str, before: &[Call], call: &Call, says: Says) {
        self.after(name, before, written(call), says);
    }

    fn after(&mut self, name: &str, before: &[Call], bytes: Vec<u8>, says: Says) {
        self.0.push(Case { name: name.to_owned(), before: before.to_vec(), bytes, says });
    }
}

fn append(topic: u8, entry: u64, batch: u64) -> Call {
    Call::Append { topic, ledger: 1, entry, handle: 5, batch }
}

fn plain(consumer: u64, topic: u8) -> Call {
    Call::Subscribe { consumer, kind: Kind::Plain, topic, subscription: 1 }
}

/// Groups of ids (1, from) to (1, to - 1), each with so many words.
fn ids(from: u64, to: u64, words: usize) -> Vec<Group> {
    (from..to).map(|entry| Group { ledger: 1, entry, words: vec![3; words] }).collect()
}

fn ack(consumer: u64, groups: Vec<Group>) -> Call {
    Call::Ack { consumer, groups }
}

fn redeliver(consumer: u64, groups: Vec<Group>) -> Call {
    Call::Redeliver { consumer, groups }
}

fn seek(consumer: u64, ledger: u64, entry: u64) -> Call {
    Call::Seek { consumer, target: Target::Id(ledger, entry) }
}

/// For each kind the words of a good record, a word too few and a word too many, and a count whose
/// high byte is 1.
fn counts(cases: &mut Cases) {
    let good: [(u8, &[u64], Says); 9] = [
        (1, &[1, 1, 0, 5, 0], DONE),
        (2, &[7, 1, 1, 1], DONE),
        (3, &[7, 2], Answer(4, 0)),
        (4, &[7, 1, 0, 0], Answer(4, 0)),
        (5, &[7, 0], Answer(4, 0)),
        (5, &[7, 1, 1, 0], Answer(4, 0)),
        (6, &[7, 1, 0, 0], Answer(4, 0)),
        (7, &[7], DONE),
        (8, &[], DONE),
    ];
    for (kind, words, says) in good {
        let lists = matches!(kind, 4 | 6);
        let other = if lists { Answer(4, 0) } else { Bad };
        cases.words("a good record", kind, words, says);
        if let Some((_, fewer)) = words.split_last() {
            cases.words("a word too few", kind, fewer, other);
        }
        cases.words("a word too many", kind, &[words, &[0]].concat(), other);
        cases.words("256 words too many", kind, &[words, &[0; 256]].concat(), other);
        let most = [words, &[0; MOST_WORDS + 1]].concat();
        cases.words("1,217 words", kind, &most[..MOST_WORDS], other);
        cases.words("1,218 words", kind, &most[..=MOST_WORDS], Bad);
        for count in [1, MOST_WORDS as u16, MOST_WORDS as u16 + 1, 0x8000, u16::MAX] {
            cases.after("a count and no words", &[], headed(kind, count), Bad);
        }
    }
    for kind in [0, 9, 10, 127, 128, 129, 136, 254, 255] {
        for words in [0, 1, 2, 4, 5, MOST_WORDS, MOST_WORDS + 1] {
            cases.words("a kind that is none", kind, &vec![7; words], Bad);
        }
    }
}

/// Lists of the most words and one more, of groups and of other words, for one who is live and for
/// one who is not.
fn lists(cases: &mut Cases) {
    let live = [append(1, 0, 200), shared(7, 1, 1), flow(7, 1), Call::Push];
    for kind in [4, 6] {
        cases.words("no word", kind, &[], Bad);
        cases.words("a consumer alone", kind, &[7], Answer(4, 0));
        let mut of = |name: &str, list: &[u64], number: u8| {
            let words = [&[7], list].concat();
            cases.words(name, kind, &words, Answer(4, 0));
            cases.after(name, &live, record(kind, &words), Answer(number, 0));
        };
        of("an empty list", &[], 0);
        of("64 groups of 16 words", &list(&ids(0, 64, 16)), 0);
        of("64 groups of no words", &list(&ids(0, 64, 0)), 0);
        of("65 groups", &list(&ids(0, 65, 0)), 10);
        of("405 groups", &list(&ids(0, 405, 0)), 10);
        of("a group of 16 words", &list(&ids(0, 1, 16)), 0);
        of("a group of 17 words", &list(&ids(0, 1, 17)), 10);
        of("1,216 words that are no groups", &[TOP; 1216], 10);
        of("1,215 words of 64 groups", &list(&ids(0, 64, 16))[..1215], 10);
        of("the count of the last group one too large", &[1, 0, 0, 1, 1, 1], 10);
        of("a count of all bits", &[1, 0, TOP], 10);
        of("a count of 2^61", &[1, 0, 1 << 61], 10);
        of("a count of 256", &[1, 0, 256], 10);
        for words in [1, 2] {
            of("part of a group", &[1, 0][..words], 10);
        }
        let longer = [&[7][..], &[0; MOST_WORDS]].concat();
        cases.after("1,218 words of one who is live", &live, record(kind, &longer), Bad);
    }
}

/// Each field at its limit and one past it.
fn fields(cases: &mut Cases) {
    for (number, says) in [(255, DONE), (256, Bad), (1 << 32, Bad), (1 << 56, Bad), (TOP, Bad)] {
        cases.words("append's topic", 1, &[number, 1, 0, 5, 0], says);
        cases.words("subscribe's topic", 2, &[7, 1, number, 1], says);
        cases.words("subscribe's subscription", 2, &[7, 0, 1, number], says);
    }
    for at in 1..4 {
        let mut words = [1, 1, 0, 5, 0];
        words[at] = TOP;
        cases.words("append's 64 bits", 1, &words, DONE);
    }
    for (batch, says) in [(256, DONE), (257, Answer(8, 0)), (1 << 32, Answer(8, 0))] {
        cases.words("append's batch size", 1, &[1, 1, 0, 5, batch], says);
    }
    cases.words("append's batch size", 1, &[1, 1, 0, 5, TOP], Answer(8, 0));
    let kinds = [(0, DONE), (1, DONE), (2, Bad), (255, Bad), (256, Bad), (257, Bad), (TOP, Bad)];
    for (kind, says) in kinds {
        cases.words("subscribe's kind", 2, &[7, kind, 1, 1], says);
    }
    let most = u64::from(u32::MAX);
    for (grant, known, unknown) in [
        (most, DONE, Answer(4, 0)),
        (most + 1, Bad, Bad),
        (1 << 33, Bad, Bad),
        (1 << 63, Bad, Bad),
        (TOP, Bad, Bad),
    ] {
        cases.words("a grant", 3, &[7, grant], unknown);
        cases.after("a grant", &[plain(7, 1)], record(3, &[7, grant]), known);
    }
    for target in [0, 1, 2, 255, 256, 257, 1 << 32, TOP] {
        for words in 2..6 {
            let all = [7, target, 1, 0, 0];
            let says = matches!((target, words), (0, 2) | (1, 4));
            let says = if says { Answer(4, 0) } else { Bad };
            cases.words("seek's target", 5, &all[..words], says);
        }
    }
    cases.words("seek without a target", 5, &[7], Bad);
    cases.words("seek without a word", 5, &[], Bad);
}

/// The largest numbers of 64 bits, in every field that takes them.
fn largest(cases: &mut Cases) {
    let group = |words| vec![Group { ledger: TOP, entry: TOP, words }];
    let mut before = Vec::new();
    let append = Call::Append { topic: 255, ledger: TOP, entry: TOP, handle: TOP, batch: 256 };
    for (call, says) in [
        (append, DONE),
        (shared(TOP, 255, 255), DONE),
        (flow(TOP, u32::MAX), DONE),
        (Call::Push, Answer(0, 1)),
        (ack(TOP, group(vec![TOP; 16])), DONE),
        (redeliver(TOP, group(vec![])), DONE),
        (seek(TOP, TOP, TOP), DONE),
        (Call::Push, Answer(0, 1)),
        (ack(TOP, group(vec![])), DONE),
        (close(TOP), DONE),
    ] {
        cases.call("all bits", &before, &call, says);
        before.push(call);
    }
}

/// The refusals, each with the call before it that is still done.
fn refusals(cases: &mut Cases) {
    let mut pair = |name: &str, before: Vec<Call>, done: Call, refused: Call, number: u8| {
        cases.call(name, &before, &done, DONE);
        let before = [before, vec![done]].concat();
        cases.call(name, &before, &refused, Answer(number, 0));
    };
    let eight: Vec<Call> = (1..8).map(|topic| append(topic, 0, 0)).collect();
    pair("8 and 9 topics", eight, append(8, 0, 0), append(9, 0, 0), 5);
    let full: Vec<Call> = (0..31).map(|entry| append(1, entry, 0)).collect();
    pair("32 and 33 entries", full.clone(), append(1, 31, 0), append(1, 32, 0), 6);
    pair("an id twice", vec![], append(1, 0, 0), append(1, 0, 0), 7);
    pair("an id twice, batch 257", vec![], append(1, 0, 256), append(1, 0, 257), 8);
    for first in [shared(7, 1, 1), plain(7, 1)] {
        let mut grants = vec![first];
        grants.extend((0..256).map(|_| flow(7, u32::MAX)));
        pair("2^40 permits and one more", grants, flow(7, 256), flow(7, 1), 9);
    }
    let outside = vec![shared(7, 1, 1), ack(7, ids(0, 63, 0))];
    pair("64 and 65 outside ids", outside, ack(7, ids(63, 64, 2)), ack(7, ids(64, 65, 2)), 11);
    let nacked = vec![append(1, 0, 0), plain(7, 1), redeliver(7, vec![ids(0, 1, 0).remove(0); 63])];
    let again = redeliver(7, ids(0, 1, 0));
    pair("64 and 65 nacked entries", nacked, again.clone(), again, 11);
    let many: Vec<Call> = (0..31).map(|id| plain(id, 1)).collect();
    pair("32 and 33 consumers", many, shared(31, 1, 1), shared(32, 1, 1), 12);
    let pairs: Vec<Call> = (1..8).map(|n| shared(n, 1, n as u8)).collect();
    pair("8 and 9 dispatchers", pairs, shared(8, 1, 8), shared(9, 1, 9), 13);
    let mut ring: Vec<Call> = (0..32).map(|id| shared(id, 1, 1)).collect();
    ring.extend([shared(0, 2, 1), close(0)]);
    pair("a ring of 32 with one who left", ring, shared(1, 1, 1), shared(32, 1, 1), 14);

    for call in [flow(7, 0), ack(7, vec![]), seek(7, 1, 0), redeliver(7, vec![])] {
        cases.call("not live any more", &[shared(7, 1, 1), close(7)], &call, Answer(4, 0));
    }
    let mut due = [full, vec![append(1, 31, 0)]].concat();
    for (name, of) in [("shared", shared(7, 1, 1)), ("plain", plain(7, 1))] {
        let due = [due.clone(), vec![of, flow(7, 32)]].concat();
        cases.call(&format!("32 due, {name}"), &due, &Call::Push, Answer(0, 32));
    }
    due.extend([shared(7, 1, 1), flow(7, 32), plain(8, 1), flow(8, 1)]);
    cases.call("33 due", &due, &Call::Push, Answer(15, 0));
    due.extend([Call::Push, close(8)]);
    cases.call("33 due, then 32", &due, &Call::Push, Answer(0, 32));
}

/// Permits after a dispatch: below 0, 0, and the most.
fn permits(cases: &mut Cases) {
    for (batch, grant) in [(100, 1), (256, 1), (0, 1), (1, 1), (2, 1), (256, 256), (0, u32::MAX)] {
        let before = [append(1, 0, batch), shared(7, 1, 1), flow(7, grant)];
        cases.call("permits after a dispatch", &before, &Call::Push, Answer(0, 1));
    }
    let mut before = vec![append(1, 0, 0), shared(7, 1, 1)];
    before.extend((0..256).map(|_| flow(7, u32::MAX)));
    before.push(flow(7, 256));
    cases.call("one of 2^40 permits", &before, &Call::Push, Answer(0, 1));
}

/// Calls that all are done or refused by 4 and leave the store as it was opened.
fn good_records() -> Vec<Call> {
    let start = Call::Seek { consumer: 1000, target: Target::Start };
    vec![
        Call::Push,
        plain(1000, 9),
        flow(1000, 5),
        Call::Push,
        start,
        ack(1000, ids(0, 2, 1)),
        redeliver(1000, ids(0, 2, 0)),
        close(1000),
        close(1000),
        flow(1000, 1),
        ack(1000, vec![]),
    ]
}

/// What the model's text says of the record after so many good ones.
fn said(bytes: &[u8], before: usize) -> Option<Says> {
    let text = play(bytes).text;
    let number = before + 1;
    if text.lines().any(|line| line == format!("bad {number}")) {
        return Some(Bad);
    }
    let line = text.lines().find(|line| line.starts_with(&format!("{number} ")))?;
    let mut last = line.split(' ').skip(2);
    Some(Answer(last.next()?.parse().ok()?, last.next()?.parse().ok()?))
}

/// The header's cases: `bad 0`, with records after it and without.
fn headers(runs: &mut Runs) -> Result<(), String> {
    let records: Vec<u8> = good_records().iter().flat_map(written).collect();
    let mut wrong = Vec::new();
    for version in [0u16, 2, 3, 256, 257, 0x0101, u16::MAX] {
        wrong.push([b"HBT", &version.to_be_bytes()[..]].concat());
    }
    for (at, bits) in (0..3).flat_map(|at| [1, 0x20, 0x80, 0xff].map(|bits| (at, bits))) {
        let mut header = HEADER.to_vec();
        header[at] ^= bits;
        wrong.push(header);
    }
    wrong.push(b"TBH\x00\x01".to_vec());
    wrong.push(b"\x00HBT\x00\x01".to_vec());
    for header in wrong {
        for bytes in [header.clone(), [&header[..], &records].concat()] {
            if play(&bytes).text != "bad 0\n" {
                return Err(format!("the model takes the header {header:?}"));
            }
            runs.same("headers", &bytes)?;
        }
    }
    runs.same("a header alone", &HEADER)?;
    runs.same("a header and good records", &[&HEADER[..], &records].concat())
}

fn cases() -> Vec<Case> {
    let mut cases = Cases::default();
    counts(&mut cases);
    lists(&mut cases);
    fields(&mut cases);
    largest(&mut cases);
    refusals(&mut cases);
    permits(&mut cases);
    cases.0
}

/// Each case as it stands, and after some good records; with good records behind it.
pub fn compare(runs: &mut Runs) -> Result<(), String> {
    headers(runs)?;
    let good = good_records();
    for case in cases() {
        for first in [&[][..], &good] {
            let before = [first, &case.before].concat();
            let mut bytes = trace(&before);
            bytes.extend(&case.bytes);
            // A count without its words would take them from what follows.
            if case.name != "a count and no words" {
                bytes.extend(good.iter().flat_map(written));
            }
            let found = said(&bytes, before.len());
            if found != Some(case.says) {
                return Err(format!(
                    "the model differs from the papers: {}, {:?}: {found:?}",
                    case.name, case.says
                ));
            }
            runs.same(&case.name, &bytes)?;
        }
    }
    numbers(runs)?;
    fixed(runs)
}

/// A record's number of six figures.
fn numbers(runs: &mut Runs) -> Result<(), String> {
    let mut bytes = trace(&vec![close(1); 100_000]);
    bytes.extend(record(8, &[1]));
    runs.same("bad 100001", &bytes)
}

/// The fixed sequences of the other comparisons, on the player's store.
fn fixed(runs: &mut Runs) -> Result<(), String> {
    for (name, calls) in [crate::limits::all(), crate::limits::outside()].concat() {
        for calls in calls.split(|call| matches!(call, Call::Open { .. })).skip(1) {
            runs.same(name, &trace(calls))?;
        }
    }
    Ok(())
}
