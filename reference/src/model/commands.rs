//! Document 01's "Commands": what each operation does once no refusal applies.

use super::{Consumer, Dispatcher, Mark, Message, Model, Mutation, Topic};
use crate::call::{Group, Kind, Outcome, Target};

/// The first `batch` bits set.
fn fresh_unacked_bits(batch: u64) -> [u64; 4] {
    let mut bits = [0; 4];
    for (i, word) in bits.iter_mut().enumerate() {
        let left = batch.saturating_sub(64 * i as u64);
        *word = if left >= 64 { u64::MAX } else { (1 << left) - 1 };
    }
    bits
}

impl Dispatcher {
    fn new(topic: u8, subscription: u8, entries: usize) -> Self {
        Dispatcher {
            topic,
            subscription,
            attached: Vec::new(),
            next: 0,
            cursor: 0,
            mark_delete: 0,
            total_available_permits: 0,
            redelivery: Default::default(),
            in_flight: Vec::new(),
            marks: vec![Mark::default(); entries],
            outside: Vec::new(),
        }
    }

    fn advance_mark_delete(&mut self) {
        while self.marks.get(self.mark_delete).is_some_and(|m| m.fully_acked) {
            self.mark_delete += 1;
        }
    }

    fn complete(&mut self, position: usize) {
        self.marks[position].bits = None;
        self.marks[position].fully_acked = true;
    }
}

impl Model {
    pub(super) fn open(&mut self, entries: u64, leak: bool, noop: bool) -> Outcome {
        *self = Model { entries, leak, noop, mutation: self.mutation, ..Model::new() };
        Outcome::done(0)
    }

    pub(super) fn append(&mut self, topic: u8, message: Message) -> Outcome {
        let id = (message.ledger, message.entry);
        match self.topics.iter_mut().find(|t| t.number == topic) {
            Some(t) => t.messages.push(message),
            None => self.topics.push(Topic { number: topic, messages: vec![message] }),
        }
        let forgets = self.wrong(Mutation::OutsideForgotten);
        let advances = self.wrong(Mutation::MarkDeleteAtAppend);
        for d in self.dispatchers.iter_mut().filter(|d| d.topic == topic) {
            let fully_acked = d.outside.contains(&id) && !forgets;
            d.outside.retain(|o| *o != id);
            d.marks.push(Mark { fully_acked, ..Mark::default() });
            if advances {
                d.advance_mark_delete();
            }
        }
        Outcome::done(0)
    }

    pub(super) fn subscribe(&mut self, id: u64, kind: Kind, topic: u8, sub: u8) -> Outcome {
        let live = self.live(id);
        if live.is_some() && self.noop && !self.wrong(Mutation::NoopIgnored) {
            return Outcome::done(0);
        }
        let kept = live.map_or(0, |slot| self.consumers[slot].permits);
        let permits = if self.wrong(Mutation::ResubscribeKeepsPermits) { kept } else { 0 };
        self.consumers.retain(|c| c.id != id);
        let nacked = Vec::new();
        let made = Consumer { id, topic, subscription: sub, kind, permits, cursor: 0, nacked };
        let slot = self.consumers.partition_point(|c| c.id < id);
        self.consumers.insert(slot, made);
        if kind == Kind::Shared {
            self.attach(id, topic, sub);
        }
        Outcome::done(0)
    }

    fn attach(&mut self, id: u64, topic: u8, subscription: u8) {
        let at_front = self.wrong(Mutation::JoinAtFront);
        let d = self.dispatcher(topic, subscription).unwrap_or_else(|| {
            let entries = self.messages(topic).len();
            self.dispatchers.push(Dispatcher::new(topic, subscription, entries));
            self.dispatchers.len() - 1
        });
        let ring = &mut self.dispatchers[d].attached;
        if !ring.contains(&id) {
            ring.insert(if at_front { 0 } else { ring.len() }, id);
        }
    }

    pub(super) fn flow(&mut self, id: u64, grant: u32) -> Outcome {
        let slot = self.live(id).expect("refused before");
        let grant = i64::from(grant);
        self.consumers[slot].permits += grant;
        if let Some(d) = self.dispatcher_of(&self.consumers[slot]) {
            self.dispatchers[d].total_available_permits += grant;
        }
        Outcome::done(self.consumers[slot].permits)
    }

    pub(super) fn ack(&mut self, id: u64, groups: &[Group]) -> Outcome {
        let slot = self.live(id).expect("refused before");
        let Some(d) = self.dispatcher_of(&self.consumers[slot]) else {
            return Outcome::done(0);
        };
        for group in groups {
            self.ack_one(d, group);
        }
        self.drop_complete(d, id, groups);
        let stays = self.wrong(Mutation::AckNeverAdvances);
        let d = &mut self.dispatchers[d];
        let before = d.mark_delete;
        if !stays {
            d.advance_mark_delete();
        }
        Outcome::done(d.mark_delete as i64 * 2 + i64::from(d.mark_delete != before))
    }

    fn ack_one(&mut self, d: usize, group: &Group) {
        let id = (group.ledger, group.entry);
        let topic = self.dispatchers[d].topic;
        let Some(position) = self.position(topic, id) else {
            let outside = &self.dispatchers[d].outside;
            if !outside.contains(&id) && !self.wrong(Mutation::UnknownNotComplete) {
                self.dispatchers[d].outside.push(id);
            }
            return;
        };
        let batch = self.messages(topic)[position].batch;
        let least = if self.wrong(Mutation::BitsForBatchOne) { 0 } else { 1 };
        if batch <= least || group.words.is_empty() {
            return self.dispatchers[d].complete(position);
        }
        let mark = &self.dispatchers[d].marks[position];
        if mark.fully_acked && self.wrong(Mutation::LatePartialIgnored) {
            return;
        }
        let absent = if self.wrong(Mutation::AbsentWordsAsOnes) { u64::MAX } else { 0 };
        let mut bits = mark.bits.unwrap_or_else(|| fresh_unacked_bits(batch));
        for (i, word) in bits.iter_mut().enumerate() {
            *word &= group.words.get(i).copied().unwrap_or(absent);
        }
        if bits == [0; 4] {
            self.dispatchers[d].complete(position);
        } else {
            self.dispatchers[d].marks[position].bits = Some(bits);
        }
    }

    /// The acker alone drops its complete entries, named in this ack or not.
    fn drop_complete(&mut self, d: usize, id: u64, groups: &[Group]) {
        let everyone = self.wrong(Mutation::DropFromEveryHolder);
        let named_only = self.wrong(Mutation::AckDropsNamedOnly);
        let off_queue = self.wrong(Mutation::AckTakesOffQueue);
        let topic = self.dispatchers[d].topic;
        let named: Vec<usize> =
            groups.iter().filter_map(|g| self.position(topic, (g.ledger, g.entry))).collect();
        let Dispatcher { in_flight, marks, redelivery, .. } = &mut self.dispatchers[d];
        in_flight.retain(|(holder, position)| {
            let drops = *holder == id || everyone;
            !(drops && marks[*position].fully_acked && (!named_only || named.contains(position)))
        });
        if off_queue {
            redelivery.retain(|position| !marks[*position].fully_acked);
        }
    }

    pub(super) fn seek(&mut self, id: u64, target: Target) -> Outcome {
        let slot = self.live(id).expect("refused before");
        let cursor = match target {
            Target::Start => 0,
            Target::Id(ledger, entry) => {
                self.seek_position(self.consumers[slot].topic, (ledger, entry))
            }
        };
        self.consumers[slot].cursor = cursor;
        if !self.wrong(Mutation::SeekKeepsNacked) {
            self.consumers[slot].nacked.clear();
        }
        if self.wrong(Mutation::SeekMovesDispatcher)
            && let Some(d) = self.dispatcher_of(&self.consumers[slot])
        {
            self.dispatchers[d].cursor = cursor;
        }
        Outcome::done(cursor as i64)
    }

    /// The first position at or after an id; the ledger's length where there is none.
    fn seek_position(&self, topic: u8, id: (u64, u64)) -> usize {
        let strictly = self.wrong(Mutation::SeekStrictlyGreater);
        let messages = self.messages(topic);
        let found = messages.iter().position(|m| {
            let here = (m.ledger, m.entry);
            here > id || (here == id && !strictly)
        });
        found.unwrap_or(if self.wrong(Mutation::PastEndToStart) {
            0
        } else if self.wrong(Mutation::PastEndToLast) {
            messages.len().saturating_sub(1)
        } else {
            messages.len()
        })
    }

    pub(super) fn redeliver(&mut self, id: u64, groups: &[Group]) -> Outcome {
        let slot = self.live(id).expect("refused before");
        let topic = self.consumers[slot].topic;
        let once = self.wrong(Mutation::RepeatedNackOnce);
        let shared = self.dispatcher_of(&self.consumers[slot]);
        for group in groups {
            let Some(position) = self.position(topic, (group.ledger, group.entry)) else {
                continue;
            };
            match shared {
                Some(d) => self.redeliver_one(d, id, position),
                None => {
                    let nacked = &mut self.consumers[slot].nacked;
                    if !(once && nacked.contains(&position)) {
                        nacked.push(position);
                    }
                }
            }
        }
        Outcome::done(0)
    }

    fn redeliver_one(&mut self, d: usize, id: u64, position: usize) {
        let not_held_too = self.wrong(Mutation::RedeliverNotHeld);
        let keeps_count = self.wrong(Mutation::RedeliverKeepsCount);
        let d = &mut self.dispatchers[d];
        let held = d.in_flight.iter().position(|(h, p)| *h == id && *p == position);
        if held.is_none() && !not_held_too {
            return;
        }
        if let Some(at) = held {
            d.in_flight.remove(at);
        }
        d.redelivery.push_back(position);
        if !keeps_count {
            let count = &mut d.marks[position].redelivery_count;
            *count = count.saturating_add(1);
        }
    }

    pub(super) fn close(&mut self, id: u64) -> Outcome {
        let Some(slot) = self.live(id) else {
            return Outcome::done(0);
        };
        let consumer = self.consumers.remove(slot);
        if let Some(d) = self.dispatcher_of(&consumer) {
            self.detach(d, &consumer);
        }
        Outcome::done(1)
    }

    fn detach(&mut self, d: usize, consumer: &Consumer) {
        let raises_counts = self.wrong(Mutation::CountAtClose);
        let reversed = self.wrong(Mutation::HeldReversed);
        let reduces = !self.wrong(Mutation::NextNotReduced);
        let follows = self.wrong(Mutation::NextFollowsLeaver);
        let times = match (
            self.leak && !self.wrong(Mutation::LeakIgnored),
            self.wrong(Mutation::CloseKeepsTotal),
        ) {
            (_, true) => 0,
            (true, false) => 2,
            (false, false) => 1,
        };
        let d = &mut self.dispatchers[d];
        let place = d.attached.iter().position(|id| *id == consumer.id);
        d.attached.retain(|id| *id != consumer.id);
        d.total_available_permits -= times * consumer.permits;
        let mut held: Vec<usize> =
            d.in_flight.iter().filter(|(h, _)| *h == consumer.id).map(|(_, p)| *p).collect();
        d.in_flight.retain(|(holder, _)| *holder != consumer.id);
        if reversed {
            held.reverse();
        }
        for position in held {
            d.redelivery.push_back(position);
            d.marks[position].redelivery_count += u32::from(raises_counts);
        }
        if follows && place.is_some_and(|p| p < d.next) {
            d.next -= 1;
        }
        if reduces {
            d.next = if d.attached.is_empty() { 0 } else { d.next % d.attached.len() };
        }
    }
}
