//! The calls of the rows that are timed, and the states that they are made on. Every call of a row has
//! its work to do.
//!
//! The state is the half full one of the other tables: 8 topics of E / 2 messages, 8 shared subscriptions
//! of 2 consumers each; half of the messages are held, half are queued, nobody has permits. With E = 32
//! that is too little for some rows of 256, which have a state of their own.

use crate::call::{Call, Kind, Target};
use crate::model::Model;
use crate::speed::{BATCH, SUBSCRIPTION, TOPICS, World, filled, group, in_part};

/// The consumers of a state.
const CONSUMERS: u64 = 16;
/// What a batch of 256 costs of which one message is acknowledged.
const COST: u32 = 255;

/// The states: the half full one; that with one dispatch due; subscriptions without messages; E messages
/// in each topic, all held; E / 2 messages in each topic, all queued.
#[derive(Debug, Clone, Copy, PartialEq, Eq)]
pub enum State {
    Half,
    Due,
    Bare,
    Held,
    Queued,
}

/// The kinds of rows.
#[derive(Debug, Clone, Copy, PartialEq, Eq)]
pub enum Load {
    Append,
    Subscribe,
    Flow,
    Ack,
    Seek,
    Redeliver,
    Close,
    PushOf0,
    PushOf1,
}

pub const LOADS: [(&str, Load); 9] = [
    ("append", Load::Append),
    ("subscribe", Load::Subscribe),
    ("flow", Load::Flow),
    ("ack of 1", Load::Ack),
    ("seek", Load::Seek),
    ("redeliver", Load::Redeliver),
    ("close", Load::Close),
    ("push of 0", Load::PushOf0),
    ("flow, push", Load::PushOf1),
];

impl State {
    pub fn world(self, entries: u64) -> World {
        match self {
            State::Half => filled(entries, entries / 2, CONSUMERS, 0),
            State::Due => {
                let mut world = filled(entries, entries / 2, CONSUMERS, 0);
                world.call(Call::Flow { consumer: 1, grant: COST });
                world
            }
            State::Bare => handed_out(entries, 0, false),
            State::Held => handed_out(entries, entries, false),
            State::Queued => handed_out(entries, entries / 2, true),
        }
    }
}

/// Subscriptions of which all messages were handed out and acknowledged in part, all held or all queued.
fn handed_out(entries: u64, count: u64, queued: bool) -> World {
    let mut world = World::open(entries);
    for topic in 0..TOPICS {
        world.append(topic, count, BATCH);
    }
    for consumer in 1..=CONSUMERS {
        world.subscribe(consumer, ((consumer - 1) % u64::from(TOPICS)) as u8);
    }
    for d in 0..usize::from(TOPICS) {
        let ring = world.model.dispatchers[d].attached.clone();
        world.flow(&ring, count, BATCH);
    }
    world.call(Call::Push);
    for d in 0..usize::from(TOPICS) {
        world.redeliver(d, |_| queued);
        world.ack(d, in_part(count));
    }
    world
}

impl Load {
    /// The state of a row of so many calls.
    pub fn state(self, entries: u64, calls: usize) -> State {
        let many = entries == 32 && calls > 64;
        match self {
            Load::Append if many => State::Bare,
            Load::Ack | Load::Redeliver if many => State::Held,
            Load::PushOf1 if many => State::Queued,
            Load::PushOf1 if calls == 1 => State::Due,
            _ => State::Half,
        }
    }

    /// Whether the calls of such a row are of another make than those of the short ones.
    pub fn is_other(self, entries: u64, calls: usize) -> bool {
        let mixed = matches!(self, Load::Subscribe | Load::Close) && calls > CONSUMERS as usize;
        mixed || !matches!(self.state(entries, calls), State::Half | State::Due)
    }

    /// The calls of a row.
    pub fn calls(self, model: &Model, calls: usize) -> Vec<Call> {
        let held = held(model);
        (0..calls as u64).map(|i| self.call(model, &held, i, calls)).collect()
    }

    /// Call `i` of a row of so many.
    fn call(self, model: &Model, held: &[(u64, u64)], i: u64, calls: usize) -> Call {
        let (turn, topic) = (1 + i % CONSUMERS, (i % u64::from(TOPICS)) as u8);
        let last = model.messages(0).len() as u64;
        let one = |place: u64| {
            let (holder, position) = held[place as usize];
            (holder, vec![group(1, position, &[])])
        };
        match self {
            Load::Append => {
                let entry = last + i / u64::from(TOPICS);
                Call::Append { topic, ledger: 1, entry, handle: 7, batch: 3 }
            }
            Load::Subscribe => join(CONSUMERS + turn),
            Load::Flow => Call::Flow { consumer: turn, grant: 1 },
            Load::Ack => {
                let (consumer, groups) = one(i);
                Call::Ack { consumer, groups }
            }
            Load::Seek => {
                let entry = last - 1 - i / CONSUMERS % 2;
                Call::Seek { consumer: turn, target: Target::Id(1, entry) }
            }
            Load::Redeliver => {
                let (consumer, groups) = one(i);
                Call::Redeliver { consumer, groups }
            }
            Load::Close if calls <= CONSUMERS as usize => Call::Close { consumer: turn },
            Load::Close => {
                let consumer = 1 + i / 2 % CONSUMERS;
                if i % 2 == 0 { Call::Close { consumer } } else { join(consumer) }
            }
            Load::PushOf1 if calls > 1 && i % 2 == 0 => {
                Call::Flow { consumer: 1 + i / 2 % CONSUMERS, grant: COST }
            }
            Load::PushOf0 | Load::PushOf1 => Call::Push,
        }
    }
}

/// A consumer subscribes where its number says.
fn join(consumer: u64) -> Call {
    let topic = ((consumer - 1) % u64::from(TOPICS)) as u8;
    Call::Subscribe { consumer, kind: Kind::Shared, topic, subscription: SUBSCRIPTION }
}

/// Who holds which message: the first of each topic, then the second, and so on.
fn held(model: &Model) -> Vec<(u64, u64)> {
    let most = model.dispatchers.iter().map(|d| d.in_flight.len()).min().unwrap_or(0);
    let each = |k: usize| model.dispatchers.iter().map(move |d| d.in_flight[k]);
    (0..most).flat_map(each).map(|(holder, position)| (holder, position as u64)).collect()
}
