//! Random call sequences inside document 01's comparison domain. The generator follows
//! its own calls on the model, so that it can aim: at what a consumer holds, at bits that
//! are left, at the limits. A call that would leave the domain is thrown away and drawn
//! again, unless sequences with every refusal are wanted.

use crate::call::{Call, Group, Kind, OPERATIONS, Side, Target};
use crate::model::{Consumer, MAX_GROUPS, MAX_WORDS, Model};
use crate::rng::Rng;

const BATCHES: [u64; 10] = [0, 1, 2, 3, 63, 64, 65, 128, 255, 256];
const GRANTS: [u32; 14] = [0, 1, 1, 1, 2, 2, 3, 5, 10, 64, 100, 256, 1000, u32::MAX];

/// Which operations may be drawn; one that an archive does not export is left out.
pub type Allowed = [bool; OPERATIONS.len()];
pub const ALL: Allowed = [true; OPERATIONS.len()];

/// What a sequence has to be like.
pub struct Wanted {
    pub length: usize,
    pub allowed: Allowed,
    /// Whether it stays inside the comparison domain.
    pub inside: bool,
    /// The entries per topic, if they are fixed.
    pub entries: Option<u64>,
    /// The most records that one push may give, if there is a bound.
    pub most_due: Option<usize>,
}

impl Wanted {
    pub fn calls(length: usize, allowed: Allowed) -> Self {
        Wanted { length, allowed, inside: true, entries: None, most_due: None }
    }
}

/// What one sequence is made of.
#[derive(Clone)]
struct Profile {
    topics: Vec<u8>,
    subscriptions: Vec<u8>,
    ids: Vec<u64>,
    batches: Vec<u64>,
    shared_percent: u64,
    weights: [u64; OPERATIONS.len()],
}

pub struct Generator<'a> {
    rng: &'a mut Rng,
    /// The state after the calls so far.
    pub model: Model,
    profile: Profile,
    wanted: &'a Wanted,
}

fn distinct_bytes(rng: &mut Rng, count: u64) -> Vec<u8> {
    let first = rng.below(256) as u8;
    (0..count).map(|i| first.wrapping_add((i * 37) as u8)).collect()
}

fn consumer_ids(rng: &mut Rng) -> Vec<u64> {
    let count = *rng.pick(&[1, 2, 2, 3, 3, 4, 6, 12, 40]);
    let base = *rng.pick(&[0, 0, 1, 7, 1 << 40]);
    let mut ids: Vec<u64> = (0..count).map(|i| base + i).collect();
    if rng.percent(20) {
        ids.push(u64::MAX);
    }
    ids
}

fn profile(rng: &mut Rng) -> Profile {
    let topics = *rng.pick(&[1, 1, 1, 2, 2, 3, 8, 10]);
    let subscriptions = *rng.pick(&[1, 1, 2, 3, 9]);
    let mut weights = [0, 16, 6, 14, 16, 4, 12, 5, 24];
    for weight in &mut weights[1..] {
        *weight = *weight * *rng.pick(&[1, 2, 2, 2, 4, 8]) / 2;
    }
    let batches = match rng.below(4) {
        0 => vec![0, 1],
        1 => vec![2, 3, 3, 65],
        _ => BATCHES.to_vec(),
    };
    Profile {
        topics: distinct_bytes(rng, topics),
        subscriptions: distinct_bytes(rng, subscriptions),
        ids: consumer_ids(rng),
        batches,
        shared_percent: *rng.pick(&[0, 50, 80, 95, 100, 100]),
        weights,
    }
}

pub fn entries(rng: &mut Rng) -> u64 {
    match rng.below(100) {
        0..5 => 1,
        5..10 => 2,
        10..25 => 3 + rng.below(8),
        25..85 => 32,
        85..97 => 33 + rng.below(300),
        _ => 4096,
    }
}

/// One sequence: an open, then the calls.
pub fn sequence(rng: &mut Rng, wanted: &Wanted) -> Vec<Call> {
    let mut profile = profile(rng);
    for (weight, allowed) in profile.weights.iter_mut().zip(wanted.allowed) {
        *weight *= u64::from(allowed);
    }
    let entries = wanted.entries.unwrap_or_else(|| entries(rng));
    let leak = *rng.pick(&[0, 0, 1]);
    let noop = *rng.pick(&[0, 0, 1, u64::MAX]);
    let open = Call::Open { entries, leak, noop };
    let mut calls = vec![open.clone()];
    if profile.weights.iter().sum::<u64>() == 0 {
        return calls;
    }
    let mut generator = Generator { rng, model: Model::new(), profile, wanted };
    generator.model.call(&open);
    while calls.len() <= wanted.length {
        let Some(call) = generator.next_call() else { break };
        generator.model.call(&call);
        calls.push(call);
    }
    calls
}

impl<'a> Generator<'a> {
    /// One for a store that is not opened again, whose caller makes the calls: ten topics, two more
    /// than there can be, and three subscriptions.
    pub fn lasting(rng: &'a mut Rng, wanted: &'a Wanted, model: Model) -> Self {
        let (topics, subscriptions) = (distinct_bytes(rng, 10), distinct_bytes(rng, 3));
        let profile = Profile { topics, subscriptions, ..profile(rng) };
        Generator { rng, model, profile, wanted }
    }

    /// Other consumers, weights and batches, on the same topics and subscriptions.
    pub fn turn(&mut self) {
        let Profile { topics, subscriptions, .. } = self.profile.clone();
        self.profile = Profile { topics, subscriptions, ..profile(self.rng) };
    }
}

impl Generator<'_> {
    /// A call inside the domain, if it has to be; none if a full state leaves nothing to draw. So
    /// a seek by id is played against broker.rs only where some entry is at or after the id.
    fn next_call(&mut self) -> Option<Call> {
        (0..200).find_map(|_| {
            let call = self.candidate();
            let wanted = match self.model.leaves_domain(&call) {
                true => !self.wanted.inside,
                false => self.push_is_worth_it(&call),
            };
            wanted.then_some(call)
        })
    }

    /// Keeps one idle push in four, and no push with more records than the bound.
    fn push_is_worth_it(&mut self, call: &Call) -> bool {
        if *call != Call::Push {
            return true;
        }
        let due = self.model.clone().call(call).records.len();
        due <= self.wanted.most_due.unwrap_or(usize::MAX) && (due > 0 || self.rng.percent(25))
    }

    /// A call of any kind, inside the domain or not.
    pub fn candidate(&mut self) -> Call {
        let weights = &self.profile.weights;
        // With nobody live most calls are refused; subscribe soon.
        if weights[2] > 0 && self.model.consumers.is_empty() && self.rng.percent(70) {
            return self.subscribe();
        }
        match self.rng.weighted(weights) {
            1 => self.append(),
            2 => self.subscribe(),
            3 => self.flow(),
            4 => {
                let consumer = self.consumer();
                Call::Ack { consumer, groups: self.groups(consumer, true) }
            }
            5 => self.seek(),
            6 => {
                let consumer = self.consumer();
                Call::Redeliver { consumer, groups: self.groups(consumer, false) }
            }
            7 => Call::Close { consumer: self.consumer() },
            _ => Call::Push,
        }
    }

    /// Mostly a live consumer, now and then any id.
    fn consumer(&mut self) -> u64 {
        if self.model.consumers.is_empty() || self.rng.percent(6) {
            return *self.rng.pick(&self.profile.ids);
        }
        self.rng.pick(&self.model.consumers).id
    }

    /// Any grant; from below 0 often one that brings the permits to just about 0.
    fn flow(&mut self) -> Call {
        let consumer = self.consumer();
        let permits =
            self.model.live(consumer).map_or(0, |slot| self.model.consumers[slot].permits);
        let grant = match u32::try_from(-permits) {
            Ok(below) if below > 0 && self.rng.percent(60) => below - 1 + self.rng.below(4) as u32,
            _ => *self.rng.pick(&GRANTS),
        };
        Call::Flow { consumer, grant }
    }

    fn append(&mut self) -> Call {
        let topic = *self.rng.pick(&self.profile.topics);
        let (ledger, entry) = self.new_id(topic);
        let too_large = !self.wanted.inside && self.rng.percent(3);
        let batch = if too_large { 257 } else { *self.rng.pick(&self.profile.batches) };
        let handle =
            if self.rng.percent(5) { u64::MAX } else { self.rng.next() >> self.rng.below(64) };
        Call::Append { topic, ledger, entry, handle, batch }
    }

    /// Ids mostly ascend; some come from a small space, some were acked before.
    fn new_id(&mut self, topic: u8) -> (u64, u64) {
        let outside: Vec<(u64, u64)> = self
            .model
            .dispatchers
            .iter()
            .filter(|d| d.topic == topic)
            .flat_map(|d| d.outside.iter().copied())
            .collect();
        match self.rng.below(100) {
            0..20 if !outside.is_empty() => *self.rng.pick(&outside),
            20..30 => self.small_id(),
            30..32 => (u64::MAX, u64::MAX - self.rng.below(3)),
            draw => match self.model.messages(topic).last() {
                None => (1, 0),
                Some(last) if draw < 40 => (last.ledger.wrapping_add(1), 0),
                Some(last) => (last.ledger, last.entry.wrapping_add(1)),
            },
        }
    }

    fn small_id(&mut self) -> (u64, u64) {
        (self.rng.below(4), self.rng.below(12))
    }

    fn subscribe(&mut self) -> Call {
        let shared = self.rng.percent(self.profile.shared_percent);
        let known = self.model.dispatchers.len() as u64;
        // Join a ring that is there rather than spread over new pairs.
        let (topic, subscription) = if shared && known > 0 && self.rng.percent(60) {
            let d = self.rng.pick(&self.model.dispatchers);
            (d.topic, d.subscription)
        } else {
            (*self.rng.pick(&self.profile.topics), *self.rng.pick(&self.profile.subscriptions))
        };
        Call::Subscribe {
            consumer: *self.rng.pick(&self.profile.ids),
            kind: if shared { Kind::Shared } else { Kind::Plain },
            topic,
            subscription,
        }
    }

    fn seek(&mut self) -> Call {
        let consumer = self.consumer();
        let topic = self.model.live(consumer).map_or(0, |slot| self.model.consumers[slot].topic);
        let messages = self.model.messages(topic);
        let target = match self.rng.below(100) {
            0..20 => Target::Start,
            20..70 if !messages.is_empty() => {
                let m = self.rng.pick(messages);
                Target::Id(m.ledger, m.entry.wrapping_add(self.rng.below(2)))
            }
            70..80 => Target::Id(u64::MAX, u64::MAX),
            _ => {
                let (ledger, entry) = self.small_id();
                Target::Id(ledger, entry)
            }
        };
        Call::Seek { consumer, target }
    }

    fn groups(&mut self, consumer: u64, ack: bool) -> Vec<Group> {
        let live = self.model.live(consumer).map(|slot| self.model.consumers[slot].clone());
        let count = match self.rng.below(100) {
            0..8 => 0,
            8..58 => 1,
            58..88 => 2 + self.rng.below(3),
            88..98 => 5 + self.rng.below(8),
            // From an unknown consumer a list that is too long is refused by 4 all the same.
            _ if live.is_none() || !self.wanted.inside => MAX_GROUPS as u64 + self.rng.below(2),
            _ => MAX_GROUPS as u64,
        };
        let mut groups: Vec<Group> = Vec::new();
        for _ in 0..count {
            let group = match &live {
                Some(c) => self.group(c, ack),
                None => self.unknown_group(),
            };
            groups.push(group);
            if self.rng.percent(10) {
                let again = self.rng.pick(&groups).clone();
                groups.push(again);
            }
        }
        groups.truncate(count as usize);
        groups
    }

    fn unknown_group(&mut self) -> Group {
        let (ledger, entry) = self.small_id();
        let words = vec![1; self.rng.below(MAX_WORDS as u64 + 2) as usize];
        Group { ledger, entry, words }
    }

    fn group(&mut self, consumer: &Consumer, ack: bool) -> Group {
        let (ledger, entry) = match self.position(consumer, ack) {
            Some(position) => {
                let m = &self.model.messages(consumer.topic)[position];
                (m.ledger, m.entry)
            }
            None if self.rng.percent(50) => self.new_id(consumer.topic),
            None => self.small_id(),
        };
        let words = if ack || self.rng.percent(20) {
            self.ack_words(consumer, (ledger, entry))
        } else {
            Vec::new()
        };
        Group { ledger, entry, words }
    }

    /// A position to name: held by the consumer, by others, queued, complete, or any.
    fn position(&mut self, consumer: &Consumer, ack: bool) -> Option<usize> {
        let entries = self.model.messages(consumer.topic).len();
        let mut from: Vec<usize> = Vec::new();
        let draw = self.rng.below(100);
        if let Some(d) = self.model.dispatcher_of(consumer) {
            let d = &self.model.dispatchers[d];
            let mine = |(h, p): &(u64, usize)| (*h == consumer.id).then_some(*p);
            let others = |(h, p): &(u64, usize)| (*h != consumer.id).then_some(*p);
            from = match draw {
                0..50 => d.in_flight.iter().filter_map(mine).collect(),
                50..65 => d.in_flight.iter().filter_map(others).collect(),
                65..75 => d.redelivery.iter().copied().collect(),
                75..85 => (0..entries).filter(|p| d.marks[*p].fully_acked).collect(),
                _ => Vec::new(),
            };
        }
        // Ids outside the ledger last for ever, so they are named seldom.
        if from.is_empty() && entries > 0 && (draw < 96 || !ack) {
            from = (0..entries).collect();
        }
        if from.is_empty() { None } else { Some(*self.rng.pick(&from)) }
    }

    /// Ack set words around what is left of the entry's bits.
    fn ack_words(&mut self, consumer: &Consumer, id: (u64, u64)) -> Vec<u64> {
        let position = self.model.position(consumer.topic, id);
        let batch = position.map_or(0, |p| self.model.messages(consumer.topic)[p].batch);
        let stored = position
            .zip(self.model.dispatcher_of(consumer))
            .and_then(|(p, d)| self.model.dispatchers[d].marks[p].bits)
            .unwrap_or([u64::MAX; 4]);
        let n = batch.div_ceil(64).max(1) as usize;
        let mut words = stored[..n].to_vec();
        match self.rng.below(100) {
            0..25 => words.clear(),
            25..50 => words.iter_mut().for_each(|w| *w = self.rng.next()),
            50..70 => {
                let bit = self.rng.below(batch.max(1));
                words[(bit / 64) as usize] &= !(1 << (bit % 64));
            }
            70..78 => words.iter_mut().for_each(|w| *w = !*w),
            78..86 => words.truncate(1),
            86..94 => {
                let most = MAX_WORDS + usize::from(!self.wanted.inside);
                let more = self.rng.below((most - n) as u64 + 1);
                words.extend((0..more).map(|_| self.rng.next()));
            }
            _ => words.iter_mut().for_each(|w| *w &= self.rng.next() | self.rng.next()),
        }
        words
    }
}
