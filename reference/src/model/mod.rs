//! Document 01's rules as plain Rust, after the document's text and in another form than
//! broker.rs: positions instead of copied messages, one list of what is in flight, marks
//! by entry, refusals. It tells the generator what is inside the comparison domain; it is a
//! side that broker.rs is compared with, and what the C exports are compared with beside it.

mod commands;
pub mod mutation;
mod push;
mod refusal;

use std::collections::{BTreeMap, VecDeque};

use crate::call::{Call, Kind, Outcome, Side, Target};
use crate::state;
use mutation::Mutation;

pub use refusal::{MAX_GROUPS, MAX_WORDS};

#[derive(Debug, Clone)]
pub struct Message {
    pub ledger: u64,
    pub entry: u64,
    pub handle: u64,
    pub batch: u64,
}

#[derive(Debug, Clone)]
pub struct Topic {
    pub number: u8,
    pub messages: Vec<Message>,
}

#[derive(Debug, Clone)]
pub struct Consumer {
    pub id: u64,
    pub topic: u8,
    pub subscription: u8,
    pub kind: Kind,
    /// Document 01: balance.
    pub permits: i64,
    pub cursor: usize,
    pub nacked: Vec<usize>,
}

/// What a dispatcher keeps for one entry of its topic.
#[derive(Debug, Clone, Default)]
pub struct Mark {
    pub fully_acked: bool,
    pub redelivery_count: u32,
    pub bits: Option<[u64; 4]>,
}

#[derive(Debug, Clone)]
pub struct Dispatcher {
    pub topic: u8,
    pub subscription: u8,
    pub attached: Vec<u64>,
    pub next: usize,
    pub cursor: usize,
    pub mark_delete: usize,
    pub total_available_permits: i64,
    pub redelivery: VecDeque<usize>,
    /// (holder, position), in dispatch order.
    pub in_flight: Vec<(u64, usize)>,
    pub marks: Vec<Mark>,
    /// Complete ids outside the ledger, a set: in the order in which they came.
    pub outside: Vec<(u64, u64)>,
}

#[derive(Debug, Clone)]
pub struct Model {
    pub entries: u64,
    pub leak: bool,
    pub noop: bool,
    pub topics: Vec<Topic>,
    /// By ascending id.
    pub consumers: Vec<Consumer>,
    pub dispatchers: Vec<Dispatcher>,
    mutation: Option<Mutation>,
}

impl Model {
    pub fn new() -> Self {
        Model {
            entries: 0,
            leak: false,
            noop: false,
            topics: Vec::new(),
            consumers: Vec::new(),
            dispatchers: Vec::new(),
            mutation: None,
        }
    }

    pub fn with_error(mutation: Mutation) -> Self {
        Model { mutation: Some(mutation), ..Model::new() }
    }

    fn wrong(&self, mutation: Mutation) -> bool {
        self.mutation == Some(mutation)
    }

    pub fn messages(&self, topic: u8) -> &[Message] {
        self.topics.iter().find(|t| t.number == topic).map_or(&[], |t| &t.messages)
    }

    pub fn position(&self, topic: u8, id: (u64, u64)) -> Option<usize> {
        self.messages(topic).iter().position(|m| (m.ledger, m.entry) == id)
    }

    /// The place of a live consumer.
    pub fn live(&self, id: u64) -> Option<usize> {
        self.consumers.iter().position(|c| c.id == id)
    }

    pub fn dispatcher(&self, topic: u8, subscription: u8) -> Option<usize> {
        self.dispatchers.iter().position(|d| d.topic == topic && d.subscription == subscription)
    }

    /// The dispatcher of a shared consumer.
    pub fn dispatcher_of(&self, consumer: &Consumer) -> Option<usize> {
        match consumer.kind {
            Kind::Plain => None,
            Kind::Shared => self.dispatcher(consumer.topic, consumer.subscription),
        }
    }

    /// Document 01's balance check: the balances of the ring's consumers live under it.
    pub fn balance_check(&self, dispatcher: &Dispatcher) -> i64 {
        let pair = (dispatcher.topic, dispatcher.subscription);
        let live = dispatcher.attached.iter().filter_map(|id| self.live(*id));
        let under = live.map(|place| &self.consumers[place]);
        under
            .filter(|c| c.kind == Kind::Shared && (c.topic, c.subscription) == pair)
            .map(|c| c.permits)
            .sum()
    }

    /// Whether the call leaves the comparison domain: a refusal that the Rust does not
    /// have, an id in two rings, an id in a ring while plain, or a seek past the end.
    pub fn leaves_domain(&self, call: &Call) -> bool {
        if !matches!(self.refusal(call), 0 | 4) {
            return true;
        }
        match call {
            Call::Subscribe { consumer, kind, topic, subscription } => {
                self.leaves_its_ring(*consumer, *kind, (*topic, *subscription))
            }
            Call::Seek { consumer, target } => self.seeks_past_the_end(*consumer, *target),
            _ => false,
        }
    }

    /// Whether a subscribe leaves its id in the ring of another pair, or in a ring while plain.
    fn leaves_its_ring(&self, consumer: u64, kind: Kind, pair: (u8, u8)) -> bool {
        if self.noop && self.live(consumer).is_some() {
            return false;
        }
        self.dispatchers.iter().any(|d| {
            let same = (d.topic, d.subscription) == pair;
            d.attached.contains(&consumer) && !(same && kind == Kind::Shared)
        })
    }

    /// Whether a live consumer seeks an id that no entry of its topic is at or after. The
    /// rules answer the ledger's length (request A1), broker.rs 0.
    pub fn seeks_past_the_end(&self, consumer: u64, target: Target) -> bool {
        let (Some(slot), Target::Id(ledger, entry)) = (self.live(consumer), target) else {
            return false;
        };
        let messages = self.messages(self.consumers[slot].topic);
        messages.iter().all(|m| (m.ledger, m.entry) < (ledger, entry))
    }

    fn read_dispatcher(&self, d: &Dispatcher) -> state::Dispatcher {
        let messages = self.messages(d.topic);
        let id = |p: &usize| (messages[*p].ledger, messages[*p].entry);
        let mut read = state::Dispatcher {
            attached: d.attached.clone(),
            next: d.next,
            cursor: d.cursor,
            mark_delete: d.mark_delete,
            total_available_permits: d.total_available_permits,
            redelivery: d.redelivery.iter().map(id).collect(),
            fully_acked: d.outside.iter().copied().collect(),
            ..Default::default()
        };
        for (holder, position) in &d.in_flight {
            read.in_flight.entry(*holder).or_default().push(id(position));
        }
        for (position, mark) in d.marks.iter().enumerate() {
            if mark.fully_acked {
                read.fully_acked.insert(id(&position));
            }
            if mark.redelivery_count != 0 {
                read.redelivery_counts.insert(id(&position), mark.redelivery_count);
            }
            if let Some(bits) = mark.bits {
                let words = messages[position].batch.div_ceil(64) as usize;
                read.batch_unacked.insert(id(&position), bits[..words].to_vec());
            }
        }
        read
    }

    fn read_consumer(&self, c: &Consumer) -> state::Consumer {
        let messages = self.messages(c.topic);
        let nacked = c.nacked.iter().map(|p| (messages[*p].ledger, messages[*p].entry));
        state::Consumer {
            topic: c.topic,
            subscription: c.subscription,
            shared: c.kind == Kind::Shared,
            permits: c.permits,
            cursor: c.cursor,
            nacked: nacked.collect(),
        }
    }

    fn read_topics(&self) -> BTreeMap<u8, Vec<state::Message>> {
        let read = |m: &Message| state::Message {
            id: (m.ledger, m.entry),
            handle: m.handle,
            batch: m.batch,
        };
        let topics = self.topics.iter();
        topics.map(|t| (t.number, t.messages.iter().map(read).collect())).collect()
    }
}

impl Side for Model {
    /// A refusal changes nothing and comes first.
    fn call(&mut self, call: &Call) -> Outcome {
        let number = self.refusal(call);
        if number != 0 {
            return Outcome::refused(number);
        }
        match call {
            Call::Open { entries, leak, noop } => self.open(*entries, *leak != 0, *noop != 0),
            Call::Append { topic, ledger, entry, handle, batch } => {
                let message =
                    Message { ledger: *ledger, entry: *entry, handle: *handle, batch: *batch };
                self.append(*topic, message)
            }
            Call::Subscribe { consumer, kind, topic, subscription } => {
                self.subscribe(*consumer, *kind, *topic, *subscription)
            }
            Call::Flow { consumer, grant } => self.flow(*consumer, *grant),
            Call::Ack { consumer, groups } => self.ack(*consumer, groups),
            Call::Seek { consumer, target } => self.seek(*consumer, *target),
            Call::Redeliver { consumer, groups } => self.redeliver(*consumer, groups),
            Call::Close { consumer } => self.close(*consumer),
            Call::Push => self.push_pending(),
        }
    }

    fn state(&self) -> Option<state::State> {
        let dispatchers = self.dispatchers.iter();
        Some(state::State {
            topics: self.read_topics(),
            consumers: self.consumers.iter().map(|c| (c.id, self.read_consumer(c))).collect(),
            dispatchers: dispatchers
                .map(|d| ((d.topic, d.subscription), self.read_dispatcher(d)))
                .collect(),
        })
    }
}
