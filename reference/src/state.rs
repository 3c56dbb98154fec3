//! The state in a canonical form that every side can be read into: maps by number, lists
//! in the order that is part of the state, messages by id. broker.rs keeps no order of
//! topics, dispatchers or complete ids, so those are sorted.

use std::collections::{BTreeMap, BTreeSet};

/// (ledger, entry).
pub type MessageId = (u64, u64);

#[derive(Debug, Clone, PartialEq, Eq)]
pub struct Message {
    pub id: MessageId,
    pub handle: u64,
    pub batch: u64,
}

#[derive(Debug, Clone, PartialEq, Eq)]
pub struct Consumer {
    pub topic: u8,
    pub subscription: u8,
    pub shared: bool,
    pub permits: i64,
    pub cursor: usize,
    pub nacked: Vec<MessageId>,
}

#[derive(Debug, Clone, PartialEq, Eq, Default)]
pub struct Dispatcher {
    pub attached: Vec<u64>,
    pub next: usize,
    pub cursor: usize,
    pub mark_delete: usize,
    pub total_available_permits: i64,
    pub redelivery: Vec<MessageId>,
    /// Held lists that are not empty, by consumer.
    pub in_flight: BTreeMap<u64, Vec<MessageId>>,
    pub batch_unacked: BTreeMap<MessageId, Vec<u64>>,
    pub fully_acked: BTreeSet<MessageId>,
    /// Counts above 0.
    pub redelivery_counts: BTreeMap<MessageId, u32>,
}

#[derive(Debug, Clone, PartialEq, Eq, Default)]
pub struct State {
    pub topics: BTreeMap<u8, Vec<Message>>,
    pub consumers: BTreeMap<u64, Consumer>,
    pub dispatchers: BTreeMap<(u8, u8), Dispatcher>,
}

fn ids<'a>(ids: impl IntoIterator<Item = &'a MessageId>) -> String {
    let words: Vec<String> = ids.into_iter().map(|(l, e)| format!("({l},{e})")).collect();
    format!("[{}]", words.join(" "))
}

impl State {
    /// One fact a line, in a fixed order.
    pub fn lines(&self) -> Vec<String> {
        let mut lines = Vec::new();
        for (topic, messages) in &self.topics {
            for (at, m) in messages.iter().enumerate() {
                lines.push(format!(
                    "topic {topic} entry {at}: id ({},{}) handle {} batch {}",
                    m.id.0, m.id.1, m.handle, m.batch
                ));
            }
        }
        for (id, c) in &self.consumers {
            let kind = if c.shared { "shared" } else { "plain" };
            lines.push(format!(
                "consumer {id}: {kind} topic {} subscription {} permits {} cursor {} nacked {}",
                c.topic,
                c.subscription,
                c.permits,
                c.cursor,
                ids(&c.nacked)
            ));
        }
        for ((topic, subscription), d) in &self.dispatchers {
            let name = format!("dispatcher {topic}/{subscription}");
            lines.push(format!(
                "{name}: attached {:?} next {} cursor {} mark_delete {} total_available_permits {}",
                d.attached, d.next, d.cursor, d.mark_delete, d.total_available_permits
            ));
            lines.push(format!("{name}: redelivery {}", ids(&d.redelivery)));
            for (consumer, held) in &d.in_flight {
                lines.push(format!("{name}: in_flight {consumer} {}", ids(held)));
            }
            for (id, bits) in &d.batch_unacked {
                lines.push(format!("{name}: batch_unacked ({},{}) {bits:?}", id.0, id.1));
            }
            lines.push(format!("{name}: fully_acked {}", ids(&d.fully_acked)));
            for (id, count) in &d.redelivery_counts {
                lines.push(format!("{name}: redelivery_count ({},{}) {count}", id.0, id.1));
            }
        }
        lines
    }

    /// The first line that differs, as "reference | other".
    pub fn difference(&self, other: &State) -> Option<String> {
        if self == other {
            return None;
        }
        let (mine, theirs) = (self.lines(), other.lines());
        let absent = "(no such line)".to_owned();
        (0..mine.len().max(theirs.len()))
            .map(|i| (mine.get(i).unwrap_or(&absent), theirs.get(i).unwrap_or(&absent)))
            .find(|(a, b)| a != b)
            .map(|(a, b)| format!("{a}\n    other: {b}"))
    }
}
