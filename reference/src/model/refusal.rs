//! Document 01's refusals, in the order of its text. Refusals 1 and 3 are about the
//! words of a store and 15 about a list; the model has neither.

use super::{Consumer, Model};
use crate::call::{Call, Group, Kind};

pub const MAX_ENTRIES: u64 = 4096;
pub const MAX_TOPICS: usize = 8;
pub const MAX_CONSUMERS: usize = 32;
pub const MAX_DISPATCHERS: usize = 8;
pub const MAX_RING: usize = 32;
pub const MAX_BATCH: u64 = 256;
pub const MAX_OUTSIDE: usize = 64;
pub const MAX_NACKED: usize = 64;
pub const MAX_GROUPS: usize = 64;
pub const MAX_WORDS: usize = 16;
pub const MAX_PERMITS: i64 = 1 << 40;
pub const MAX_TOTAL: i64 = 1 << 60;

/// The number of the first case that applies, or 0.
fn first(cases: &[(bool, u8)]) -> u8 {
    cases.iter().find(|(applies, _)| *applies).map_or(0, |(_, number)| *number)
}

fn bad_list(groups: &[Group]) -> bool {
    groups.len() > MAX_GROUPS || groups.iter().any(|g| g.words.len() > MAX_WORDS)
}

impl Model {
    pub fn refusal(&self, call: &Call) -> u8 {
        match call {
            Call::Open { entries, .. } => first(&[(*entries < 1 || *entries > MAX_ENTRIES, 2)]),
            Call::Append { topic, ledger, entry, batch, .. } => {
                let exists = self.topics.iter().any(|t| t.number == *topic);
                first(&[
                    (*batch > MAX_BATCH, 8),
                    (self.position(*topic, (*ledger, *entry)).is_some(), 7),
                    (!exists && self.topics.len() == MAX_TOPICS, 5),
                    (self.messages(*topic).len() as u64 == self.entries, 6),
                ])
            }
            Call::Subscribe { consumer, kind, topic, subscription } => {
                self.subscribe_refusal(*consumer, *kind, *topic, *subscription)
            }
            Call::Flow { consumer, grant } => {
                self.of_live(*consumer, |c| first(&[(self.passes(c, i64::from(*grant)), 9)]))
            }
            Call::Ack { consumer, groups } => self.of_live(*consumer, |c| {
                first(&[(bad_list(groups), 10), (self.too_many_outside(c, groups), 11)])
            }),
            Call::Redeliver { consumer, groups } => self.of_live(*consumer, |c| {
                first(&[(bad_list(groups), 10), (self.too_many_nacked(c, groups), 11)])
            }),
            Call::Seek { consumer, .. } => self.of_live(*consumer, |_| 0),
            Call::Close { consumer } => match self.live(*consumer) {
                None => 0,
                Some(slot) => first(&[(self.close_overflows(&self.consumers[slot]), 9)]),
            },
            Call::Push => 0,
        }
    }

    fn of_live(&self, consumer: u64, refusal: impl FnOnce(&Consumer) -> u8) -> u8 {
        self.live(consumer).map_or(4, |slot| refusal(&self.consumers[slot]))
    }

    fn subscribe_refusal(&self, id: u64, kind: Kind, topic: u8, subscription: u8) -> u8 {
        let live = self.live(id).is_some();
        if live && self.noop {
            return 0;
        }
        let shared = kind == Kind::Shared;
        let ring = self.dispatcher(topic, subscription).map(|d| &self.dispatchers[d].attached);
        let full = ring.is_some_and(|r| !r.contains(&id) && r.len() == MAX_RING);
        first(&[
            (!live && self.consumers.len() == MAX_CONSUMERS, 12),
            (shared && ring.is_none() && self.dispatchers.len() == MAX_DISPATCHERS, 13),
            (shared && full, 14),
        ])
    }

    fn passes(&self, c: &Consumer, grant: i64) -> bool {
        let total = self.dispatcher_of(c).map(|d| self.dispatchers[d].total_available_permits);
        c.permits + grant > MAX_PERMITS || total.is_some_and(|t| t + grant > MAX_TOTAL)
    }

    fn close_overflows(&self, c: &Consumer) -> bool {
        let times = if self.leak { 2 } else { 1 };
        self.dispatcher_of(c).is_some_and(|d| {
            let total = self.dispatchers[d].total_available_permits - times * c.permits;
            total.abs() > MAX_TOTAL
        })
    }

    /// Distinct new outside ids count, the whole list before any change.
    fn too_many_outside(&self, c: &Consumer, groups: &[Group]) -> bool {
        let Some(d) = self.dispatcher_of(c) else { return false };
        let mut outside = self.dispatchers[d].outside.clone();
        for g in groups {
            let id = (g.ledger, g.entry);
            if self.position(c.topic, id).is_none() && !outside.contains(&id) {
                outside.push(id);
            }
        }
        outside.len() > MAX_OUTSIDE
    }

    /// Every found occurrence counts.
    fn too_many_nacked(&self, c: &Consumer, groups: &[Group]) -> bool {
        let found = groups.iter().filter(|g| self.position(c.topic, (g.ledger, g.entry)).is_some());
        c.kind == Kind::Plain && c.nacked.len() + found.count() > MAX_NACKED
    }
}
