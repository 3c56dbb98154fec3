//! Runs broker.rs. This file is a child module of broker.rs's own module (see build.rs),
//! so that it can call `handle_frame` and `push_pending` and read the private fields. It
//! turns each call into the frame that a client would send and reads the answer from
//! broker.rs's replies, its logs and its state.

use std::collections::BTreeMap;

use super::*;
use crate::call::{Call, Group, Kind, Outcome, Record, Side, Target};
use crate::standins::magnetar_proto::{Frame, Payload, Sent};
use crate::state;
use pb::base_command::Type;

#[path = "driver_state.rs"]
mod driver_state;
pub use driver_state::{and_fresh, fresh};
#[path = "driver_speed.rs"]
mod driver_speed;
pub use driver_speed::Kept;

/// Request ids are only echoed by broker.rs; one value serves all.
const REQUEST: u64 = 1;

pub struct Reference {
    state: Arc<Mutex<SessionState>>,
    deps: SessionDeps,
    out: BytesMut,
}

fn topic_name(topic: u8) -> String {
    format!("t{topic}")
}

fn subscription_name(subscription: u8) -> String {
    format!("s{subscription}")
}

fn session_deps(leak: bool, noop: bool) -> SessionDeps {
    SessionDeps {
        frame_log: Arc::default(),
        consumer_close_log: Arc::default(),
        seeked_partitions: Arc::default(),
        flow_grants: Arc::default(),
        consumer_permits: Arc::default(),
        mark_deletes: Arc::default(),
        txn_drain_log: Arc::default(),
        corrupt_after_connected: Arc::default(),
        decode_fatal_on_send: Arc::default(),
        drop_after: Arc::default(),
        dropped_once: Arc::default(),
        transient_reject_on_redial: Arc::default(),
        transient_reject_fired: Arc::default(),
        withhold_producer_success_for_name: Arc::default(),
        withhold_registration_survives_close: Arc::default(),
        announce_active_consumer: Arc::default(),
        leak_shared_permits_on_churn: Arc::new(Mutex::new(leak)),
        live_id_subscribe_is_noop: Arc::new(Mutex::new(noop)),
        cross_session: Arc::default(),
    }
}

fn message_id(group: &Group) -> pb::MessageIdData {
    pb::MessageIdData {
        ledger_id: group.ledger,
        entry_id: group.entry,
        ack_set: group.words.iter().map(|w| *w as i64).collect(),
        ..Default::default()
    }
}

fn plain_id(ledger: u64, entry: u64) -> pb::MessageIdData {
    message_id(&Group { ledger, entry, words: Vec::new() })
}

/// A command of a type; `fill` puts its one field in.
fn command(kind: Type, fill: impl FnOnce(&mut pb::BaseCommand)) -> Frame {
    let mut command = pb::BaseCommand { r#type: kind as i32, ..Default::default() };
    fill(&mut command);
    Frame { command, payload: None }
}

fn send(topic: u8, id: (u64, u64), handle: u64, batch: u64) -> Frame {
    let batch = i32::try_from(batch).expect("a batch size that the Rust can hold");
    let metadata = pb::MessageMetadata {
        num_messages_in_batch: (batch != 0).then_some(batch),
        ..Default::default()
    };
    let body = Bytes::copy_from_slice(&handle.to_be_bytes());
    let send = pb::CommandSend {
        producer_id: u64::from(topic),
        message_id: Some(plain_id(id.0, id.1)),
        ..Default::default()
    };
    let frame = command(Type::Send, |c| c.send = Some(send));
    Frame { payload: Some(Payload { metadata, body }), ..frame }
}

fn subscribe(consumer_id: u64, kind: Kind, topic: u8, subscription: u8) -> Frame {
    let sub_type = match kind {
        Kind::Plain => pb::command_subscribe::SubType::Exclusive,
        Kind::Shared => pb::command_subscribe::SubType::Shared,
    };
    let subscribe = pb::CommandSubscribe {
        topic: topic_name(topic),
        subscription: subscription_name(subscription),
        sub_type: sub_type as i32,
        consumer_id,
        request_id: REQUEST,
    };
    command(Type::Subscribe, |c| c.subscribe = Some(subscribe))
}

fn ack(consumer_id: u64, groups: &[Group]) -> Frame {
    let message_id = groups.iter().map(message_id).collect();
    let ack = pb::CommandAck { consumer_id, message_id, ..Default::default() };
    command(Type::Ack, |c| c.ack = Some(ack))
}

fn seek(consumer_id: u64, target: Target) -> Frame {
    let message_id = match target {
        Target::Start => None,
        Target::Id(ledger, entry) => Some(plain_id(ledger, entry)),
    };
    let seek = pb::CommandSeek { consumer_id, request_id: REQUEST, message_id };
    command(Type::Seek, |c| c.seek = Some(seek))
}

fn redeliver(consumer_id: u64, groups: &[Group]) -> Frame {
    let message_ids = groups.iter().map(message_id).collect();
    let redeliver = pb::CommandRedeliverUnacknowledgedMessages { consumer_id, message_ids };
    command(Type::RedeliverUnacknowledgedMessages, |c| {
        c.redeliver_unacknowledged_messages = Some(redeliver);
    })
}

/// The frame that a client would send for a call; opening and push have none.
fn frame_of(call: &Call) -> Option<Frame> {
    Some(match call {
        Call::Open { .. } | Call::Push => return None,
        Call::Append { topic, ledger, entry, handle, batch } => {
            send(*topic, (*ledger, *entry), *handle, *batch)
        }
        Call::Subscribe { consumer, kind, topic, subscription: name } => {
            subscribe(*consumer, *kind, *topic, *name)
        }
        Call::Flow { consumer: consumer_id, grant: message_permits } => {
            let flow =
                pb::CommandFlow { consumer_id: *consumer_id, message_permits: *message_permits };
            command(Type::Flow, |c| c.flow = Some(flow))
        }
        Call::Ack { consumer, groups } => ack(*consumer, groups),
        Call::Seek { consumer, target } => seek(*consumer, *target),
        Call::Redeliver { consumer, groups } => redeliver(*consumer, groups),
        Call::Close { consumer: consumer_id } => {
            let close =
                pb::CommandCloseConsumer { consumer_id: *consumer_id, request_id: REQUEST };
            command(Type::CloseConsumer, |c| c.close_consumer = Some(close))
        }
    })
}

impl Reference {
    pub fn new() -> Self {
        Reference { state: Arc::default(), deps: session_deps(false, false), out: BytesMut::new() }
    }

    fn open(&mut self, leak: u64, noop: u64) -> Outcome {
        *self = Reference { deps: session_deps(leak != 0, noop != 0), ..Reference::new() };
        Outcome::done(0)
    }

    /// Hands one frame to broker.rs, with no resume session and no injected fault.
    fn frame(&mut self, frame: &Frame) {
        let inject = FrameInjections {
            corrupt_after_connected: false,
            decode_fatal_on_send: false,
            transient_reject_armed: false,
        };
        let goes_on = handle_frame(&self.state, frame, &mut self.out, &self.deps, inject, None);
        assert!(goes_on, "only an injected fault ends a session");
    }

    /// The answer to an append, which is always done.
    fn appended(&self, id: (u64, u64)) -> Outcome {
        let taken = self.out.sent.iter().any(|sent| match sent {
            Sent::Receipt(r) => {
                let m = r.message_id.as_ref().expect("a receipt has an id");
                (m.ledger_id, m.entry_id) == id
            }
            _ => false,
        });
        assert!(taken, "the broker answers with the asserted id");
        Outcome::done(0)
    }

    /// The Send arm finds the topic by the producer, so each topic gets one.
    fn open_producer(&mut self, topic: u8) {
        let producer_id = u64::from(topic);
        if self.state.lock().producers.contains_key(&producer_id) {
            return;
        }
        let producer = pb::CommandProducer {
            topic: topic_name(topic),
            producer_id,
            request_id: REQUEST,
            ..Default::default()
        };
        self.frame(&command(Type::Producer, |c| c.producer = Some(producer)));
    }

    /// broker.rs logs the permits after a grant to a live consumer, and nothing for others.
    fn flowed(&self) -> Outcome {
        match self.deps.consumer_permits.lock().last() {
            Some(&(_, permits)) => Outcome::done(permits),
            None => Outcome::refused(4),
        }
    }

    fn acked(&self, consumer: u64) -> Outcome {
        let g = self.state.lock();
        let Some((_, consumer)) = g.consumers.get(&consumer) else {
            return Outcome::refused(4);
        };
        let Some(key) = &consumer.shared_key else {
            return Outcome::done(0);
        };
        let moved = !self.deps.mark_deletes.lock().is_empty();
        let mark_delete = g.shared_dispatchers[key].mark_delete;
        Outcome::done(mark_delete as i64 * 2 + i64::from(moved))
    }

    /// broker.rs replies to a seek of a live consumer only.
    fn sought(&self, consumer: u64) -> Outcome {
        if self.out.sent.is_empty() {
            return Outcome::refused(4);
        }
        Outcome::done(self.state.lock().consumers[&consumer].1.cursor as i64)
    }

    fn redelivered(&self, consumer: u64) -> Outcome {
        if self.state.lock().consumers.contains_key(&consumer) {
            Outcome::done(0)
        } else {
            Outcome::refused(4)
        }
    }

    /// broker.rs logs a close with the topic that the consumer had, if it was live.
    fn closed(&self) -> Outcome {
        let log = self.deps.consumer_close_log.lock();
        let closed = log.last().is_some_and(|seen| seen.topic.is_some());
        Outcome::done(i64::from(closed))
    }

    /// What broker.rs answered to a frame.
    fn answer(&self, call: &Call) -> Outcome {
        match call {
            Call::Append { ledger, entry, .. } => self.appended((*ledger, *entry)),
            Call::Flow { .. } => self.flowed(),
            Call::Ack { consumer, .. } => self.acked(*consumer),
            Call::Seek { consumer, .. } => self.sought(*consumer),
            Call::Redeliver { consumer, .. } => self.redelivered(*consumer),
            Call::Close { .. } => self.closed(),
            Call::Open { .. } | Call::Subscribe { .. } | Call::Push => Outcome::done(0),
        }
    }

    /// Empties what the answer to the next call is read from.
    fn forget(&mut self) {
        self.out.clear();
        self.deps.consumer_permits.lock().clear();
        self.deps.mark_deletes.lock().clear();
    }

    fn push(&mut self) -> Outcome {
        let before = self.permits();
        push_pending(&self.state, &mut self.out, None, &self.deps);
        let log = self.deps.consumer_permits.lock().clone();
        let after = self.permits();
        let mut tracks: BTreeMap<u64, Track> = BTreeMap::new();
        for (id, permits) in &before {
            tracks.insert(*id, Track::new(*id, *permits, &log));
        }
        let mut records = Vec::new();
        for sent in &self.out.sent {
            if let Sent::Message(message, metadata, payload) = sent {
                let track = tracks.get_mut(&message.consumer_id).expect("a live consumer");
                records.push(track.record(message, metadata, payload));
            }
        }
        for (id, track) in &tracks {
            assert_eq!(track.permits, after[id], "costs add up to the change of permits");
        }
        Outcome::pushed(records)
    }

    fn permits(&self) -> BTreeMap<u64, i64> {
        self.state.lock().consumers.iter().map(|(id, (_, c))| (*id, c.permits)).collect()
    }
}

/// A consumer's permits through one push. broker.rs logs them after each shared dispatch;
/// for a plain one only the sum is seen, and it is one a dispatch.
struct Track {
    permits: i64,
    logged: std::collections::VecDeque<i64>,
}

impl Track {
    fn new(id: u64, before: i64, log: &[(u64, i64)]) -> Self {
        let logged = log.iter().filter(|(who, _)| *who == id).map(|(_, p)| *p).collect();
        Track { permits: before, logged }
    }

    fn record(
        &mut self,
        message: &pb::CommandMessage,
        metadata: &pb::MessageMetadata,
        payload: &[u8],
    ) -> Record {
        let after = self.logged.pop_front().unwrap_or(self.permits - 1);
        let cost = self.permits - after;
        self.permits = after;
        let batch = message.message_id.batch_size.expect("always stamped");
        assert_eq!(metadata.num_messages_in_batch.unwrap_or(0), batch);
        Record {
            consumer: message.consumer_id,
            ledger: message.message_id.ledger_id,
            entry: message.message_id.entry_id,
            handle: driver_state::handle_of(payload),
            batch: batch as u64,
            ack_set: message.ack_set.iter().map(|w| *w as u64).collect(),
            redelivery_count: message.redelivery_count.expect("always stamped"),
            cost,
            permits: after,
        }
    }
}

impl Side for Reference {
    fn call(&mut self, call: &Call) -> Outcome {
        if let Call::Append { topic, .. } = call {
            self.open_producer(*topic);
        }
        self.forget();
        match (call, frame_of(call)) {
            (Call::Open { leak, noop, .. }, _) => self.open(*leak, *noop),
            (Call::Push, _) => self.push(),
            (_, frame) => {
                self.frame(&frame.expect("all others have one"));
                self.answer(call)
            }
        }
    }

    fn state(&self) -> Option<state::State> {
        Some(driver_state::read(&self.state.lock()))
    }
}
