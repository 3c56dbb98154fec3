//! Document 01's "Push": dispatchers by creation, then plain consumers by ascending id.

use super::{Model, Mutation};
use crate::call::{Kind, Outcome, Record};

impl Model {
    pub(super) fn push_pending(&mut self) -> Outcome {
        let mut records = Vec::new();
        for d in 0..self.dispatchers.len() {
            while let Some(record) = self.step_shared(d) {
                records.push(record);
            }
        }
        for slot in 0..self.consumers.len() {
            while let Some(record) = self.step_plain(slot) {
                records.push(record);
            }
        }
        Outcome::pushed(records)
    }

    /// The first ring place from next, going round, whose consumer is live with permits.
    fn choose(&self, d: usize) -> Option<(usize, usize)> {
        let d = &self.dispatchers[d];
        let n = d.attached.len();
        (0..n).map(|offset| (d.next + offset) % n).find_map(|place| {
            let slot = self.live(d.attached[place])?;
            (self.consumers[slot].permits > 0).then_some((place, slot))
        })
    }

    /// Takes the next entry off the queue, else off the ledger.
    fn take_entry(&mut self, d: usize) -> Option<usize> {
        let ledger_first = self.wrong(Mutation::LedgerBeforeQueue);
        let skips = self.wrong(Mutation::SkipComplete);
        let entries = self.messages(self.dispatchers[d].topic).len();
        let d = &mut self.dispatchers[d];
        while skips && d.cursor < entries && d.marks[d.cursor].fully_acked {
            d.cursor += 1;
        }
        if (d.redelivery.is_empty() || ledger_first) && d.cursor < entries {
            d.cursor += 1;
            return Some(d.cursor - 1);
        }
        d.redelivery.pop_front()
    }

    fn step_shared(&mut self, d: usize) -> Option<Record> {
        let gate = self.dispatchers[d].total_available_permits > 0;
        if !gate && !self.wrong(Mutation::GateIgnored) {
            return None;
        }
        let (place, slot) = self.choose(d)?;
        let next = (place + 1) % self.dispatchers[d].attached.len();
        if !self.wrong(Mutation::IdlePushKeepsNext) {
            self.dispatchers[d].next = next;
        }
        let position = self.take_entry(d)?;
        self.dispatchers[d].next = next;
        Some(self.dispatch(d, slot, position))
    }

    fn dispatch(&mut self, d: usize, slot: usize, position: usize) -> Record {
        let message = self.messages(self.dispatchers[d].topic)[position].clone();
        let mark = self.dispatchers[d].marks[position].clone();
        let whole = message.batch.max(1);
        let ones = |bits: [u64; 4]| bits.iter().map(|w| u64::from(w.count_ones())).sum();
        let cost = match mark.bits {
            Some(bits) if !self.wrong(Mutation::CostNotFromBits) => ones(bits),
            _ => whole,
        } as i64;
        let words = message.batch.div_ceil(64) as usize;
        let clamps = self.wrong(Mutation::ClampPermits);
        let consumer = &mut self.consumers[slot];
        consumer.permits -= cost;
        if clamps {
            consumer.permits = consumer.permits.max(0);
        }
        let d = &mut self.dispatchers[d];
        d.total_available_permits -= cost;
        d.in_flight.push((consumer.id, position));
        Record {
            consumer: consumer.id,
            ledger: message.ledger,
            entry: message.entry,
            handle: message.handle,
            batch: message.batch,
            ack_set: mark.bits.map_or_else(Vec::new, |bits| bits[..words].to_vec()),
            redelivery_count: mark.redelivery_count,
            cost,
            permits: consumer.permits,
        }
    }

    fn step_plain(&mut self, slot: usize) -> Option<Record> {
        let by_batch = self.wrong(Mutation::PlainCostsBatch);
        let entries = self.messages(self.consumers[slot].topic).len();
        let c = &mut self.consumers[slot];
        if c.kind != Kind::Plain || c.permits <= 0 {
            return None;
        }
        let position = if !c.nacked.is_empty() {
            c.nacked.remove(0)
        } else if c.cursor < entries {
            c.cursor += 1;
            c.cursor - 1
        } else {
            return None;
        };
        let topic = c.topic;
        let message = self.messages(topic)[position].clone();
        let cost = if by_batch { message.batch.max(1) as i64 } else { 1 };
        let c = &mut self.consumers[slot];
        c.permits -= cost;
        Some(Record {
            consumer: c.id,
            ledger: message.ledger,
            entry: message.entry,
            handle: message.handle,
            batch: message.batch,
            ack_set: Vec::new(),
            redelivery_count: 0,
            cost,
            permits: c.permits,
        })
    }
}
