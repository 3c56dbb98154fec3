//! A state, its words and the rules on it, written from docs/STORE.md alone and in the
//! plainest way: words spell a state if reading them, writing them back and the rules agree.

pub const TAG: u64 = 0x5a51_4453_5031_0002;
pub const ZERO: u64 = 1 << 62;
pub const CONSUMERS: usize = 32;
pub const TOPICS: usize = 8;
pub const DISPATCHERS: usize = 8;
pub const NACKED: usize = 64;
pub const OUTSIDE: usize = 64;

#[derive(Clone, PartialEq, Eq)]
pub struct Consumer {
    pub id: u64,
    pub topic: u64,
    pub subscription: u64,
    pub kind: u64,
    pub permits: u64,
    pub cursor: u64,
    pub nacked: Vec<u64>,
}

/// Ledger, entry id, handle, batch size.
pub type Entry = [u64; 4];

#[derive(Clone, PartialEq, Eq)]
pub struct Topic {
    pub number: u64,
    pub entries: Vec<Entry>,
}

#[derive(Clone, PartialEq, Eq)]
pub struct Mark {
    pub complete: u64,
    pub count: u64,
    pub bits: [u64; 4],
}

#[derive(Clone, PartialEq, Eq)]
pub struct Dispatcher {
    pub topic: u64,
    pub subscription: u64,
    pub next: u64,
    pub cursor: u64,
    pub mark_delete: u64,
    pub total: u64,
    pub ring: Vec<u64>,
    pub outside: Vec<[u64; 2]>,
    pub queue: Vec<u64>,
    /// Holder, position.
    pub flight: Vec<[u64; 2]>,
    pub marks: Vec<Mark>,
}

#[derive(Clone, PartialEq, Eq)]
pub struct State {
    pub e: usize,
    pub leak: u64,
    pub noop: u64,
    pub consumers: Vec<Consumer>,
    pub topics: Vec<Topic>,
    pub dispatchers: Vec<Dispatcher>,
}

pub fn needed(e: usize) -> usize {
    4096 + 128 * e
}

/// A list of at most `room` elements of N words at `at`.
fn list<const N: usize>(words: &[u64], at: usize, room: usize) -> Option<Vec<[u64; N]>> {
    let count = usize::try_from(words[at]).ok().filter(|count| *count <= room)?;
    let element = |i: usize| std::array::from_fn(|j| words[at + 1 + N * i + j]);
    Some((0..count).map(element).collect())
}

fn singles(words: &[u64], at: usize, room: usize) -> Option<Vec<u64>> {
    Some(list::<1>(words, at, room)?.into_iter().map(|[word]| word).collect())
}

/// The records of a table of at most `room`, each of `width` words.
fn table<T>(
    words: &[u64],
    at: usize,
    room: usize,
    width: usize,
    record: impl Fn(&[u64]) -> Option<T>,
) -> Option<Vec<T>> {
    let count = usize::try_from(words[at]).ok().filter(|count| *count <= room)?;
    (0..count).map(|i| record(&words[at + 1 + width * i..][..width])).collect()
}

fn consumer(w: &[u64]) -> Option<Consumer> {
    let nacked = singles(w, 6, NACKED)?;
    Some(Consumer {
        id: w[0],
        topic: w[1],
        subscription: w[2],
        kind: w[3],
        permits: w[4],
        cursor: w[5],
        nacked,
    })
}

fn topic(e: usize, w: &[u64]) -> Option<Topic> {
    Some(Topic { number: w[0], entries: list(w, 3, e)? })
}

fn dispatcher(e: usize, w: &[u64]) -> Option<Dispatcher> {
    let mark =
        |[complete, count, a, b, c, d]: [u64; 6]| Mark { complete, count, bits: [a, b, c, d] };
    Some(Dispatcher {
        topic: w[0],
        subscription: w[1],
        next: w[2],
        cursor: w[3],
        mark_delete: w[4],
        total: w[5],
        ring: singles(w, 11, CONSUMERS)?,
        outside: list(w, 44, OUTSIDE)?,
        queue: singles(w, 173, e)?,
        flight: list(w, 174 + e, e)?,
        marks: list(w, 175 + 3 * e, e)?.into_iter().map(mark).collect(),
    })
}

/// What the words read as, if the tag, E, the length and all counts allow reading.
pub fn decode(w: &[u64]) -> Option<State> {
    if w.len() < 16 || w[0] != TAG || w[1] < 1 || w[1] > 4096 {
        return None;
    }
    let e = w[1] as usize;
    if w.len() < needed(e) {
        return None;
    }
    Some(State {
        e,
        leak: w[2],
        noop: w[3],
        consumers: table(w, 16, CONSUMERS, 72, consumer)?,
        topics: table(w, 2321, TOPICS, 4 + 4 * e, |w| topic(e, w))?,
        dispatchers: table(w, 2354 + 32 * e, DISPATCHERS, 176 + 9 * e, |w| dispatcher(e, w))?,
    })
}

fn put<const N: usize>(words: &mut [u64], at: usize, list: &[[u64; N]]) {
    words[at] = list.len() as u64;
    for (i, element) in list.iter().enumerate() {
        words[at + 1 + N * i..][..N].copy_from_slice(element);
    }
}

fn put_singles(words: &mut [u64], at: usize, list: &[u64]) {
    words[at] = list.len() as u64;
    words[at + 1..][..list.len()].copy_from_slice(list);
}

/// The needed words of a state.
pub fn encode(s: &State) -> Vec<u64> {
    let e = s.e;
    let mut w = vec![0; needed(e)];
    w[..4].copy_from_slice(&[TAG, e as u64, s.leak, s.noop]);
    w[16] = s.consumers.len() as u64;
    for (i, c) in s.consumers.iter().enumerate() {
        let w = &mut w[17 + 72 * i..][..72];
        let head = [c.id, c.topic, c.subscription, c.kind, c.permits, c.cursor];
        w[..6].copy_from_slice(&head);
        put_singles(w, 6, &c.nacked);
    }
    w[2321] = s.topics.len() as u64;
    for (i, t) in s.topics.iter().enumerate() {
        let w = &mut w[2322 + (4 + 4 * e) * i..][..4 + 4 * e];
        w[0] = t.number;
        put(w, 3, &t.entries);
    }
    w[2354 + 32 * e] = s.dispatchers.len() as u64;
    for (i, d) in s.dispatchers.iter().enumerate() {
        let w = &mut w[2355 + 32 * e + (176 + 9 * e) * i..][..176 + 9 * e];
        let head = [d.topic, d.subscription, d.next, d.cursor, d.mark_delete, d.total];
        w[..6].copy_from_slice(&head);
        put_singles(w, 11, &d.ring);
        put(w, 44, &d.outside);
        put_singles(w, 173, &d.queue);
        put(w, 174 + e, &d.flight);
        let mark = |m: &Mark| {
            let [a, b, c, d] = m.bits;
            [m.complete, m.count, a, b, c, d]
        };
        put(w, 175 + 3 * e, &d.marks.iter().map(mark).collect::<Vec<_>>());
    }
    w
}

fn distinct<T: Ord + Copy>(list: impl Iterator<Item = T>) -> bool {
    let mut sorted: Vec<T> = list.collect();
    sorted.sort_unstable();
    sorted.windows(2).all(|two| two[0] != two[1])
}

fn ledger(s: &State, topic: u64) -> &[Entry] {
    s.topics.iter().find(|t| t.number == topic).map_or(&[], |t| &t.entries)
}

fn valid_topic(t: &Topic) -> bool {
    t.number < 256
        && !t.entries.is_empty()
        && t.entries.iter().all(|entry| entry[3] <= 256)
        && distinct(t.entries.iter().map(|entry| (entry[0], entry[1])))
}

fn valid_consumer(s: &State, c: &Consumer) -> bool {
    let entries = ledger(s, c.topic).len() as u64;
    let pair = (c.topic, c.subscription);
    let mut its = s.dispatchers.iter().filter(|d| (d.topic, d.subscription) == pair);
    c.topic < 256
        && c.subscription < 256
        && c.kind < 2
        && (ZERO - 255..=ZERO + (1 << 40)).contains(&c.permits)
        && c.cursor <= entries
        && c.nacked.iter().all(|position| *position < entries)
        && (c.kind == 0 || its.next().is_some_and(|d| d.ring.contains(&c.id)))
}

fn valid_mark(entry: &Entry, m: &Mark) -> bool {
    let bits = if entry[3] > 1 { entry[3] as usize } else { 0 };
    let clear = |bit: usize| m.bits[bit / 64] >> (bit % 64) & 1 == 0;
    m.complete < 2 && m.count < 1 << 32 && (bits..256).all(clear)
}

fn valid_dispatcher(s: &State, d: &Dispatcher) -> bool {
    let ledger = ledger(s, d.topic);
    let entries = ledger.len() as u64;
    let positions = || d.flight.iter().map(|held| held[1]).chain(d.queue.iter().copied());
    let mut ids: Vec<[u64; 2]> = ledger.iter().map(|entry| [entry[0], entry[1]]).collect();
    ids.sort_unstable();
    d.topic < 256
        && d.subscription < 256
        && (d.next < d.ring.len() as u64 || d.ring.is_empty() && d.next == 0)
        && d.cursor <= entries
        && d.mark_delete <= entries
        && (ZERO - (1 << 60)..=ZERO + (1 << 60)).contains(&d.total)
        && distinct(d.ring.iter())
        && d.outside.windows(2).all(|two| two[0] < two[1])
        && d.outside.iter().all(|id| ids.binary_search(id).is_err())
        && d.flight.iter().all(|held| d.ring.contains(&held[0]))
        && positions().all(|position| position < d.cursor)
        && distinct(positions())
        && d.marks.len() == ledger.len()
        && ledger.iter().zip(&d.marks).all(|(entry, mark)| valid_mark(entry, mark))
}

/// The rules on the states that a store may spell.
pub fn valid(s: &State) -> bool {
    s.leak < 2
        && s.noop < 2
        && s.consumers.windows(2).all(|two| two[0].id < two[1].id)
        && s.consumers.iter().all(|c| valid_consumer(s, c))
        && distinct(s.topics.iter().map(|t| t.number))
        && s.topics.iter().all(valid_topic)
        && distinct(s.dispatchers.iter().map(|d| (d.topic, d.subscription)))
        && s.dispatchers.iter().all(|d| valid_dispatcher(s, d))
}

/// The state that the words spell, if they spell one.
pub fn spelt(words: &[u64]) -> Option<State> {
    let state = decode(words)?;
    let same = encode(&state) == words[..needed(state.e)];
    (same && valid(&state)).then_some(state)
}
