//! The calls of rows: those of the generator, which follows them on its model, and now and then some
//! one after the other that come to a limit.

use std::collections::VecDeque;

use super::row::DISPATCH;
use super::script::Record;
use crate::call::{Call, Group, Kind, Side, Target};
use crate::generator::Generator;
use crate::model::Model;
use crate::rng::Rng;
use crate::trace::bytes::MOST_WORDS;
use crate::trace::random::odd_words;

/// There are other consumers, weights and batches after about so many calls.
const TURN: u64 = 250;
/// Of 100,000 draws so many are a list that is not of the form, grants to the limit of the permits,
/// entries handed back to the limit, and a crowd.
const OTHERS: [u64; 4] = [1500, 20, 75, 40];

pub struct Drawn<'a> {
    pub generator: Generator<'a>,
    pub rng: Rng,
    /// Calls that come next, whatever else would be drawn.
    pub waiting: VecDeque<Call>,
}

impl Drawn<'_> {
    /// The records of a row of so many calls, whose pushes have so many words of list.
    pub fn row(&mut self, calls: usize, mut words: usize) -> Vec<Record> {
        let mut records = Vec::new();
        while records.len() < calls {
            records.extend(self.next(&mut words));
        }
        records
    }

    /// One draw: a record, or none.
    fn next(&mut self, words: &mut usize) -> Option<Record> {
        if let Some(call) = self.waiting.pop_front() {
            return self.follow(&call, words, 100);
        }
        let rest = 100_000 - OTHERS.iter().sum::<u64>();
        let model = &self.generator.model;
        match self.rng.weighted(&[&OTHERS[..], &[rest]].concat()) {
            0 => return Some(self.odd_list()),
            1 => self.waiting.extend(grants(model)),
            2 => self.waiting.extend(nacks(model)),
            3 => self.waiting.extend(crowd(model)),
            _ => {
                if self.rng.below(TURN) == 0 {
                    self.generator.turn();
                }
                let call = self.generator.candidate();
                return self.follow(&call, words, 25);
            }
        }
        None
    }

    /// The record of a call that the model makes too, an idle push only by chance. After 15 mostly
    /// somebody goes, so that a later push of the row fits.
    fn follow(&mut self, call: &Call, words: &mut usize, idle: u64) -> Option<Record> {
        if *call != Call::Push {
            self.generator.model.call(call);
            return Some(Record::of(call));
        }
        let mut after = self.generator.model.clone();
        let due = after.call(call).records.len();
        if due == 0 && !self.rng.percent(idle) {
            return None;
        }
        if DISPATCH * due <= *words {
            *words -= DISPATCH * due;
            self.generator.model = after;
        } else if self.rng.percent(80) {
            self.waiting.extend(relief(&self.generator.model, self.rng.percent(50)));
        }
        Some(Record::of(call))
    }

    /// An ack or redeliver whose list is not of the form, now and then of the most words; it changes
    /// nothing.
    fn odd_list(&mut self) -> Record {
        let consumers = &self.generator.model.consumers;
        let consumer = if consumers.is_empty() { 5 } else { self.rng.pick(consumers).id };
        let kind = *self.rng.pick(&[4, 6]);
        let most = self.rng.percent(10);
        let list = if most { vec![0; MOST_WORDS - 1] } else { odd_words(&mut self.rng) };
        Record { kind, words: [vec![consumer], list].concat() }
    }
}

/// Who has the most permits goes, or reads on from the end; then a push.
fn relief(model: &Model, seeks: bool) -> Vec<Call> {
    let able = model.consumers.iter().filter(|c| c.permits > 0);
    let Some((consumer, kind)) = able.max_by_key(|c| c.permits).map(|c| (c.id, c.kind)) else {
        return Vec::new();
    };
    let target = Target::Id(u64::MAX, u64::MAX);
    match kind {
        Kind::Plain if seeks => vec![Call::Seek { consumer, target }, Call::Push],
        _ => vec![Call::Close { consumer }, Call::Push],
    }
}

/// Grants to one consumer until 9, then it goes.
fn grants(model: &Model) -> Vec<Call> {
    let Some(consumer) = model.consumers.first().map(|c| c.id) else { return Vec::new() };
    let mut calls = vec![Call::Flow { consumer, grant: u32::MAX }; 258];
    calls.push(Call::Close { consumer });
    calls
}

/// A plain consumer hands back an entry 64 times, and once more: 11.
fn nacks(model: &Model) -> Vec<Call> {
    let Some(topic) = model.topics.first() else { return Vec::new() };
    let (consumer, last) = (41, &topic.messages[topic.messages.len() - 1]);
    let group = Group { ledger: last.ledger, entry: last.entry, words: Vec::new() };
    let back = |count| Call::Redeliver { consumer, groups: vec![group.clone(); count] };
    let (kind, topic) = (Kind::Plain, topic.number);
    vec![
        Call::Close { consumer },
        Call::Subscribe { consumer, kind, topic, subscription: 1 },
        back(64),
        back(1),
        Call::Close { consumer },
    ]
}

/// Consumers join a ring until 12; three turn plain and leave, and as their ids stay in the ring
/// nobody new can join (14); most leave.
fn crowd(model: &Model) -> Vec<Call> {
    let (topic, subscription) =
        model.dispatchers.first().map_or((1, 1), |d| (d.topic, d.subscription));
    let join = |consumer, kind| Call::Subscribe { consumer, kind, topic, subscription };
    let close = |consumer: u64| Call::Close { consumer };
    let mut calls: Vec<Call> = model.consumers.iter().map(|c| close(c.id)).collect();
    calls.extend((0..33).map(|id| join(id, Kind::Shared)));
    calls.extend((0..3).flat_map(|id| [join(id, Kind::Plain), close(id)]));
    calls.extend((33..36).map(|id| join(id, Kind::Shared)));
    calls.extend((3..30).map(close));
    calls
}
