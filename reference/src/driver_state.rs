//! Reads broker.rs: its private state into the canonical form, and its functions on bits
//! for the readings that are about those alone. A part of the driver, for the same reason
//! a child module.

use super::super::*;
use crate::state;

/// `fresh_unacked_bits`, for the readings K1 and K2.
pub fn fresh(batch: i32) -> Vec<u64> {
    fresh_unacked_bits(batch)
}

/// `and_into` on fresh bits, for the readings K3 and K4: the words and how many are left.
pub fn and_fresh(batch: i32, incoming: &[u64]) -> (Vec<u64>, i32) {
    let mut bits = fresh_unacked_bits(batch);
    let incoming: Vec<i64> = incoming.iter().map(|w| *w as i64).collect();
    and_into(&mut bits, &incoming);
    let left = bits_cardinality(&bits);
    (bits, left)
}

/// The number in a topic's or subscription's name, as the driver makes them.
fn number(name: &str) -> u8 {
    name[1..].parse().expect("a name made by the driver")
}

/// The handle travels as the payload.
pub fn handle_of(payload: &[u8]) -> u64 {
    u64::from_be_bytes(payload.try_into().expect("eight bytes, as appended"))
}

fn key_of(message: &StoredMessage) -> state::MessageId {
    (message.ledger_id, message.entry_id)
}

fn read_dispatcher(d: &SharedDispatcher) -> state::Dispatcher {
    let held = d.in_flight.iter().filter(|(_, held)| !held.is_empty());
    let counts = d.redelivery_counts.iter().filter(|(_, count)| **count != 0);
    state::Dispatcher {
        attached: d.attached.clone(),
        next: d.next,
        cursor: d.cursor,
        mark_delete: d.mark_delete,
        total_available_permits: d.total_available_permits,
        redelivery: d.redelivery.iter().map(key_of).collect(),
        in_flight: held.map(|(id, held)| (*id, held.iter().map(key_of).collect())).collect(),
        batch_unacked: d.batch_unacked.iter().map(|(k, v)| (*k, v.clone())).collect(),
        fully_acked: d.fully_acked.iter().copied().collect(),
        redelivery_counts: counts.map(|(k, v)| (*k, *v)).collect(),
    }
}

fn read_consumer(topic: &str, c: &ConsumerState) -> state::Consumer {
    state::Consumer {
        topic: number(topic),
        subscription: number(&c.subscription),
        shared: c.shared_key.is_some(),
        permits: c.permits,
        cursor: c.cursor,
        nacked: c.nacked.iter().map(key_of).collect(),
    }
}

fn read_message(m: &StoredMessage) -> state::Message {
    state::Message { id: key_of(m), handle: handle_of(&m.payload), batch: m.batch_size as u64 }
}

pub fn read(session: &SessionState) -> state::State {
    let topics = session.ledger.iter();
    let consumers = session.consumers.iter();
    let dispatchers = session.shared_dispatchers.iter();
    state::State {
        topics: topics.map(|(t, l)| (number(t), l.iter().map(read_message).collect())).collect(),
        consumers: consumers.map(|(id, (t, c))| (*id, read_consumer(t, c))).collect(),
        dispatchers: dispatchers
            .map(|((t, s), d)| ((number(t), number(s)), read_dispatcher(d)))
            .collect(),
    }
}
