//! States that obey the rules: random ones, most of them with something in every list, and the
//! fullest of each size.

use crate::layout::{
    CONSUMERS, Consumer, DISPATCHERS, Dispatcher, Entry, Mark, NACKED, OUTSIDE, State, TOPICS,
    Topic, ZERO,
};

/// A small generator (SplitMix64), so that a seed gives the same run everywhere.
pub struct Random(pub u64);

impl Random {
    pub fn word(&mut self) -> u64 {
        self.0 = self.0.wrapping_add(0x9e37_79b9_7f4a_7c15);
        let mut z = self.0;
        z = (z ^ (z >> 30)).wrapping_mul(0xbf58_476d_1ce4_e5b9);
        z = (z ^ (z >> 27)).wrapping_mul(0x94d0_49bb_1331_11eb);
        z ^ (z >> 31)
    }

    /// Below `n`.
    pub fn below(&mut self, n: usize) -> usize {
        (self.word() % n as u64) as usize
    }

    /// From 0 to `n`, both ends often.
    fn upto(&mut self, n: usize) -> usize {
        match self.below(4) {
            0 => 0,
            1 => n,
            _ => self.below(n + 1),
        }
    }

    fn chance(&mut self) -> bool {
        self.below(2) == 0
    }
}

pub fn empty(e: usize) -> State {
    State { e, leak: 0, noop: 0, consumers: vec![], topics: vec![], dispatchers: vec![] }
}

/// The bits that a mark of an entry may hold.
fn bits(entry: &Entry, wanted: [u64; 4]) -> [u64; 4] {
    let size = if entry[3] > 1 { entry[3] as usize } else { 0 };
    std::array::from_fn(|i| {
        let here = size.saturating_sub(64 * i).min(64);
        let mask = if here == 64 { u64::MAX } else { (1 << here) - 1 };
        wanted[i] & mask
    })
}

fn topic(r: &mut Random, e: usize, number: usize) -> Topic {
    let count = r.upto(e).max(1);
    // Half of the ledgers ascend, with gaps between the entries; others have ids out of order.
    let kind = r.below(4);
    let id = |k: usize| match kind {
        0 | 1 => [k / 7, 2 * k],
        2 => [k % 3, k],
        _ => [(k * 7 + 3) % 8191 % 3, (k * 7 + 3) % 8191],
    };
    let size = |r: &mut Random| [0, 1, 2, 3, 64, 65, 255, 256][r.below(8)];
    let entries =
        (0..count).map(|k| [id(k)[0] as u64, id(k)[1] as u64, r.word(), size(r)]).collect();
    Topic { number: number as u64, entries }
}

/// Ids that are not in the ledger, ascending: past its last one, or among its own.
fn outside(r: &mut Random, ledger: &[Entry]) -> Vec<[u64; 2]> {
    let count = r.upto(OUTSIDE);
    if r.chance() {
        return (0..count).map(|j| [9_000, j as u64 * 3]).collect();
    }
    let most = ledger.len() + 9;
    let mut ids: Vec<[u64; 2]> =
        (0..count).map(|_| [r.below(most / 7 + 1) as u64, r.below(2 * most) as u64]).collect();
    ids.sort_unstable();
    ids.dedup();
    ids.retain(|id| ledger.iter().all(|entry| entry[..2] != id[..]));
    ids
}

fn dispatcher(r: &mut Random, pair: (u64, u64), ledger: &[Entry]) -> Dispatcher {
    let ring: Vec<u64> = (0..r.upto(CONSUMERS)).map(|i| 10 + (i as u64 * 5) % 37).collect();
    let cursor = r.upto(ledger.len());
    let mut places: Vec<u64> = (0..cursor as u64).collect();
    for i in (1..places.len()).rev() {
        places.swap(i, r.below(i + 1));
    }
    let used = r.upto(places.len());
    let held = if ring.is_empty() { 0 } else { r.upto(used) };
    let flight = places[..held].iter().map(|p| [ring[r.below(ring.len())], *p]).collect();
    let outside = outside(r, ledger);
    let mark = |r: &mut Random, entry: &Entry| Mark {
        complete: r.below(2) as u64,
        count: [0, 1, (1 << 32) - 1][r.below(3)],
        bits: bits(entry, [r.word(), r.word(), r.word(), r.word()]),
    };
    Dispatcher {
        topic: pair.0,
        subscription: pair.1,
        next: if ring.is_empty() { 0 } else { r.below(ring.len()) as u64 },
        cursor: cursor as u64,
        mark_delete: r.upto(ledger.len()) as u64,
        total: [ZERO, ZERO - (1 << 60), ZERO + (1 << 60), ZERO + 7][r.below(4)],
        ring,
        outside,
        queue: places[held..used].to_vec(),
        flight,
        marks: ledger.iter().map(|entry| mark(r, entry)).collect(),
    }
}

/// A random state that obeys the rules.
pub fn random(r: &mut Random, e: usize) -> State {
    let first = r.below(240);
    let topics: Vec<Topic> = (0..r.upto(TOPICS)).map(|i| topic(r, e, first + i)).collect();
    let ledger =
        |number: u64| topics.iter().find(|t| t.number == number).map_or(&[][..], |t| &t.entries);
    let any = |r: &mut Random| (first + r.below(TOPICS)) as u64;
    let mut dispatchers: Vec<Dispatcher> = vec![];
    for subscription in 0..r.upto(DISPATCHERS) as u64 {
        let pair = (any(r), subscription % 3);
        if dispatchers.iter().all(|d| (d.topic, d.subscription) != pair) {
            dispatchers.push(dispatcher(r, pair, ledger(pair.0)));
        }
    }
    let mut consumers = vec![];
    for id in 0..r.upto(CONSUMERS) as u64 {
        let id = 10 + 2 * id;
        let its = dispatchers.iter().find(|d| d.ring.contains(&id));
        let topic = its.map_or_else(|| any(r), |d| d.topic);
        let entries = ledger(topic).len();
        let nacked = if entries == 0 { 0 } else { r.upto(NACKED) };
        consumers.push(Consumer {
            id,
            topic,
            subscription: its.map_or(255, |d| d.subscription),
            kind: u64::from(its.is_some()),
            permits: [ZERO, ZERO - 255, ZERO + (1 << 40), ZERO + 3][r.below(4)],
            cursor: r.upto(entries) as u64,
            nacked: (0..nacked).map(|_| r.below(entries) as u64).collect(),
        });
    }
    State {
        leak: r.below(2) as u64,
        noop: r.below(2) as u64,
        consumers,
        topics,
        dispatchers,
        ..empty(e)
    }
}

/// Every table and list full: ids in ascending order, half of each ledger queued and half in
/// flight, every mark with bits.
pub fn full(e: usize) -> State {
    let entries: Vec<Entry> = (0..e as u64).map(|k| [1, k, 500 + k, 256]).collect();
    let ring: Vec<u64> = (1..=CONSUMERS as u64).collect();
    let half = e as u64 / 2;
    let mark = Mark { complete: 0, count: 1, bits: [u64::MAX; 4] };
    let dispatcher = |topic| Dispatcher {
        topic,
        subscription: 1,
        next: 3,
        cursor: e as u64,
        mark_delete: 0,
        total: ZERO + 9,
        ring: ring.clone(),
        outside: (0..OUTSIDE as u64).map(|j| [2, j]).collect(),
        queue: (0..half).collect(),
        flight: (half..e as u64).map(|p| [ring[p as usize % CONSUMERS], p]).collect(),
        marks: vec![mark.clone(); e],
    };
    let consumer = |id: &u64| Consumer {
        id: *id,
        topic: id % 8,
        subscription: 1,
        kind: 1,
        permits: ZERO + 5,
        cursor: e as u64,
        nacked: vec![0; NACKED],
    };
    State {
        consumers: ring.iter().map(consumer).collect(),
        topics: (0..8).map(|number| Topic { number, entries: entries.clone() }).collect(),
        dispatchers: (0..8).map(dispatcher).collect(),
        ..empty(e)
    }
}
