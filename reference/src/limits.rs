//! Fixed call sequences for what random ones seldom reach: document 01's limits exactly
//! (full tables, the largest counts, the largest numbers), and rings that are left in
//! every order.

use crate::call::{Call, Group, Kind, Target};

fn open(entries: u64) -> Call {
    Call::Open { entries, leak: 0, noop: 0 }
}

fn append(topic: u8, entry: u64, batch: u64) -> Call {
    Call::Append { topic, ledger: 1, entry, handle: 1000 * u64::from(topic) + entry, batch }
}

pub fn shared(consumer: u64, topic: u8, subscription: u8) -> Call {
    Call::Subscribe { consumer, kind: Kind::Shared, topic, subscription }
}

fn plain(consumer: u64, topic: u8) -> Call {
    Call::Subscribe { consumer, kind: Kind::Plain, topic, subscription: 0 }
}

pub fn flow(consumer: u64, grant: u32) -> Call {
    Call::Flow { consumer, grant }
}

fn group(entry: u64, words: Vec<u64>) -> Group {
    Group { ledger: 1, entry, words }
}

fn ack(consumer: u64, groups: Vec<Group>) -> Call {
    Call::Ack { consumer, groups }
}

pub fn close(consumer: u64) -> Call {
    Call::Close { consumer }
}

/// 8 topics and 8 dispatchers.
fn tables_full() -> Vec<Call> {
    let mut calls = vec![open(32)];
    for topic in 0..8 {
        calls.push(append(topic, 0, 2));
        calls.push(shared(u64::from(topic), topic, 255 - topic));
        calls.push(flow(u64::from(topic), 1 + u32::from(topic)));
    }
    calls.push(Call::Push);
    calls.extend((0..8).map(|topic| ack(topic, vec![group(0, vec![2])])));
    calls.extend((0..8).rev().map(close));
    calls.push(Call::Push);
    calls
}

/// 32 consumers in one ring, one permit each; they leave from both ends.
fn ring_full() -> Vec<Call> {
    let mut calls = vec![open(32)];
    calls.extend((0..32).map(|id| shared(id, 3, 4)));
    calls.extend((0..32).map(|entry| append(3, entry, 1)));
    calls.extend((0..32).map(|id| flow(id, 1)));
    calls.push(Call::Push);
    for id in 0..15 {
        calls.extend([close(id), flow(31 - id, 2), Call::Push, close(31 - id), Call::Push]);
    }
    calls.extend((0..30).map(|id| shared(id, 3, 4)));
    calls.extend((0..30).map(|id| flow(id, 1)));
    calls.push(Call::Push);
    calls
}

/// 64 complete ids outside the ledger from one list of 64 groups with 16 words each;
/// appending some frees their places.
fn outside_full() -> Vec<Call> {
    let all = (0..64).map(|entry| group(entry, vec![u64::MAX; 16])).collect();
    let mut calls = vec![open(32), shared(7, 1, 1), ack(7, all)];
    calls.extend((0..10).map(|entry| append(1, entry, 3)));
    calls.push(ack(7, vec![]));
    calls.push(ack(7, (100..110).map(|entry| group(entry, vec![])).collect()));
    calls.extend([flow(7, 100), Call::Push, ack(7, vec![group(3, vec![5])]), close(7)]);
    calls.extend([shared(8, 1, 1), flow(8, 100), Call::Push]);
    calls
}

/// 64 nacked entries of a plain consumer, repeats included.
fn nacked_full() -> Vec<Call> {
    let mut calls = vec![open(32), plain(7, 1)];
    calls.extend((0..8).map(|entry| append(1, entry, 3)));
    let groups: Vec<Group> = (0..64).map(|i| group(i % 8, vec![1])).collect();
    calls.push(Call::Redeliver { consumer: 7, groups });
    calls.extend([flow(7, 63), Call::Push, flow(7, 5), Call::Push]);
    calls.push(Call::Redeliver { consumer: 7, groups: vec![group(1, vec![]); 64] });
    calls.push(Call::Seek { consumer: 7, target: Target::Id(1, 7) });
    calls.extend([flow(7, 70), Call::Push]);
    calls
}

/// Permits of exactly 2^40, for a shared and a plain consumer.
fn permits_full(leak: u64) -> Vec<Call> {
    let mut calls = vec![Call::Open { entries: 32, leak, noop: 0 }];
    calls.extend([
        append(1, 0, 256),
        append(1, 1, 0),
        shared(7, 1, 1),
        shared(9, 1, 1),
        plain(8, 1),
    ]);
    for id in [7, 8] {
        calls.extend((0..256).map(|_| flow(id, u32::MAX)));
        calls.push(flow(id, 256));
    }
    calls.extend([Call::Push, flow(7, 257), flow(8, 2), close(7), close(8), Call::Push]);
    calls
}

/// One permit against each batch size, then the way back up, and partial acks.
fn batches() -> Vec<Call> {
    let sizes = [0, 1, 2, 3, 63, 64, 65, 127, 128, 129, 191, 192, 193, 255, 256];
    let mut calls = vec![open(32), shared(7, 1, 1), shared(8, 1, 1)];
    for (entry, batch) in sizes.iter().enumerate() {
        let entry = entry as u64;
        calls.extend([append(1, entry, *batch), flow(7, 1), Call::Push]);
        calls.extend([flow(7, *batch as u32), Call::Push]);
        calls.push(ack(7, vec![group(entry, vec![u64::MAX - 1])]));
        calls.push(Call::Redeliver { consumer: 7, groups: vec![group(entry, vec![])] });
        calls.extend([flow(8, 1), Call::Push, ack(8, vec![group(entry, vec![1, 1, 1, 1])])]);
        calls.extend([close(8), shared(8, 1, 1)]);
    }
    calls
}

/// E = 4,096, all of it dispatched, acked 64 ids at a time from the end, handed over.
fn entries_full() -> Vec<Call> {
    let mut calls = vec![open(4096), shared(7, 1, 1), shared(8, 1, 1), plain(9, 1)];
    calls.extend((0..4096).map(|entry| append(1, entry, entry % 3)));
    calls.extend([flow(7, 5000), flow(8, 5000), flow(9, 10_000), Call::Push]);
    for first in (0..64).rev() {
        let groups =
            (0..64).map(|i| group(first * 64 + i, vec![u64::from(first % 5 == 0)])).collect();
        calls.push(ack(7 + first % 2, groups));
    }
    calls.extend([close(7), flow(8, 5000), Call::Push, close(8)]);
    calls
}

/// A topic of one entry.
fn entries_one() -> Vec<Call> {
    let mut calls = vec![open(1), append(0, 0, 1), append(255, 0, 1), shared(1, 0, 0)];
    calls.extend([shared(2, 255, 0), flow(1, 2), flow(2, 2), Call::Push, Call::Push]);
    calls.extend([ack(1, vec![group(0, vec![])]), ack(2, vec![group(0, vec![0])]), Call::Push]);
    calls
}

/// The largest numbers in every field.
fn numbers_full() -> Vec<Call> {
    let top = u64::MAX;
    let id = |words| Group { ledger: top, entry: top, words };
    let append = Call::Append { topic: 255, ledger: top, entry: top, handle: top, batch: 256 };
    vec![
        Call::Open { entries: 32, leak: top, noop: top },
        append,
        shared(top, 255, 255),
        Call::Subscribe { consumer: top, kind: Kind::Plain, topic: 1, subscription: 1 },
        flow(top, u32::MAX),
        Call::Push,
        ack(top, vec![id(vec![top, top, top, top - 1])]),
        Call::Redeliver { consumer: top, groups: vec![id(vec![top])] },
        Call::Push,
        Call::Seek { consumer: top, target: Target::Id(top, top) },
        ack(top, vec![id(vec![0; 16])]),
        close(top),
        close(top),
    ]
}

/// One entry handed back 300 times.
fn counts_high() -> Vec<Call> {
    let mut calls = vec![open(32), append(1, 0, 65), shared(7, 1, 1), shared(8, 1, 1)];
    for turn in 0..300 {
        calls.extend([flow(7 + turn % 2, 65), Call::Push]);
        calls.push(Call::Redeliver { consumer: 7, groups: vec![group(0, vec![]); 3] });
        calls.push(Call::Redeliver { consumer: 8, groups: vec![group(0, vec![])] });
    }
    calls
}

/// Three consumers leave a ring in every order and join it again, with next at every
/// place; an entry after each step shows whose turn it is. `between` sends one between
/// leaving and joining too.
fn ring_orders(between: bool) -> Vec<Call> {
    let orders = [[7, 8, 9], [7, 9, 8], [8, 7, 9], [8, 9, 7], [9, 7, 8], [9, 8, 7]];
    let mut calls = Vec::new();
    for order in orders {
        for turns in 0..3 {
            let mut entry = 0..;
            let mut one_more = || [append(1, entry.next().expect("no end"), 0), Call::Push];
            calls.push(open(32));
            for id in [7, 8, 9] {
                calls.extend([shared(id, 1, 1), flow(id, 20)]);
            }
            calls.extend((0..turns).flat_map(|_| one_more()));
            for leaver in order {
                calls.push(close(leaver));
                if between {
                    calls.extend(one_more());
                }
                calls.extend([shared(leaver, 1, 1), flow(leaver, 20)]);
                calls.extend(one_more());
            }
            calls.extend(order.map(close));
        }
    }
    calls
}

/// Every sequence with its name.
pub fn all() -> Vec<(&'static str, Vec<Call>)> {
    vec![
        ("tables full", tables_full()),
        ("ring full", ring_full()),
        ("rings in every order", ring_orders(false)),
        ("rings in every order, served between", ring_orders(true)),
        ("outside ids full", outside_full()),
        ("nacked full", nacked_full()),
        ("permits full", permits_full(0)),
        ("permits full, leak", permits_full(1)),
        ("batch sizes", batches()),
        ("4,096 entries", entries_full()),
        ("one entry", entries_one()),
        ("largest numbers", numbers_full()),
        ("high counts", counts_high()),
    ]
}

/// A grant past 2^40, for a shared and a plain consumer (9).
fn permits_past() -> Vec<Call> {
    let mut calls = permits_full(0);
    calls.truncate(calls.len() - 6);
    calls.extend([
        flow(7, 1),
        flow(8, 1),
        flow(7, 0),
        flow(8, 0),
        Call::Push,
        flow(8, 2),
        flow(8, 3),
    ]);
    calls
}

/// A 33rd id in a ring (14): 0 is replaced as plain and closed, but stays in the ring.
fn ring_past() -> Vec<Call> {
    let mut calls = vec![open(32)];
    calls.extend((0..32).map(|id| shared(id, 1, 1)));
    calls.extend([plain(0, 1), close(0), shared(32, 1, 1), shared(0, 1, 1), shared(32, 1, 1)]);
    calls
}

/// A batch of 257 (8), an id twice (7), a ninth topic (5) and dispatcher (13), a second entry
/// of one (6), a 33rd consumer (12).
fn tables_past() -> Vec<Call> {
    let mut calls = vec![open(1), append(0, 0, 257), append(0, 0, 256), append(0, 0, 257)];
    calls.extend([append(0, 0, 1), append(0, 1, 1)]);
    calls.extend((1..9).map(|topic| append(topic, 0, 1)));
    calls.extend((0..9).map(|topic| shared(u64::from(topic), topic, 9)));
    calls.extend((10..35).map(|id| plain(id, 1)));
    calls.extend([shared(35, 0, 9), shared(10, 8, 9), shared(10, 0, 9), plain(35, 1), close(35)]);
    calls.extend([close(11), shared(35, 0, 9), flow(35, 1), Call::Push]);
    calls
}

/// 65 groups and 17 words (10), 65 outside ids and 65 nacked entries (11), nobody's list (4).
fn lists_past() -> Vec<Call> {
    let redeliver = |consumer, groups| Call::Redeliver { consumer, groups };
    let ids = |from, to| (from..to).map(|entry| group(entry, vec![])).collect::<Vec<Group>>();
    let mut calls = vec![open(32), shared(7, 1, 1), plain(8, 1)];
    for consumer in [7, 8, 9] {
        calls.extend([ack(consumer, ids(0, 65)), redeliver(consumer, ids(0, 65))]);
        let long = vec![group(0, vec![1; 17])];
        calls.extend([ack(consumer, long.clone()), redeliver(consumer, long)]);
        calls.extend([ack(consumer, ids(0, 64)), ack(consumer, ids(63, 65))]);
    }
    calls.extend([append(1, 3, 2), ack(7, ids(63, 66)), ack(7, ids(63, 65)), ack(7, ids(65, 66))]);
    calls.extend([redeliver(8, vec![group(3, vec![]); 63]), redeliver(8, ids(3, 10))]);
    calls.extend([redeliver(8, vec![group(3, vec![]); 2]), redeliver(8, ids(3, 4)), flow(8, 9)]);
    calls.extend([Call::Push, redeliver(8, vec![group(3, vec![]); 10]), redeliver(8, ids(4, 68))]);
    calls
}

/// Seeks past the end, where broker.rs goes to the start: of a plain consumer with entries handed
/// back, of one whose topic no append has made, of a shared one.
fn seeks_past() -> Vec<Call> {
    let seek = |consumer, entry| Call::Seek { consumer, target: Target::Id(1, entry) };
    let mut calls = vec![open(32), append(1, 0, 0), append(1, 3, 2), plain(7, 1), plain(8, 2)];
    calls.extend([shared(9, 1, 1), flow(7, 9), flow(8, 9), flow(9, 9), Call::Push]);
    calls.push(Call::Redeliver { consumer: 7, groups: vec![group(0, vec![])] });
    calls.extend([seek(7, 3), seek(7, 4), seek(8, 0), seek(9, 4), Call::Push]);
    calls.extend([append(1, 4, 0), append(2, 0, 0), Call::Push, Call::Push]);
    calls.extend([seek(7, u64::MAX), seek(8, 1), seek(9, 4), Call::Push]);
    calls
}

/// Sequences that the comparison domain leaves out: the refusals that random calls seldom meet,
/// and seeks past the end.
pub fn outside() -> Vec<(&'static str, Vec<Call>)> {
    vec![
        ("permits past the limit", permits_past()),
        ("ring past the limit", ring_past()),
        ("tables past the limit", tables_past()),
        ("lists past the limit", lists_past()),
        ("seeks past the end", seeks_past()),
    ]
}
