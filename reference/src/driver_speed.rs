//! broker.rs timed: a state that is kept and brought back before each call, so that every round
//! makes the same call on the same state. A part of the driver, for the same reason a child
//! module. Frames are made before the clock starts; what is timed is `handle_frame` or
//! `push_pending` alone.

use std::time::Instant;

use super::super::*;
use super::{Reference, frame_of};
use crate::call::{Call, Outcome, Side};
use crate::standins::magnetar_proto::{Frame, Sent};

/// A state of broker.rs.
pub struct Kept(SessionState);

fn dispatcher(d: &SharedDispatcher) -> SharedDispatcher {
    SharedDispatcher {
        cursor: d.cursor,
        attached: d.attached.clone(),
        next: d.next,
        in_flight: d.in_flight.clone(),
        redelivery: d.redelivery.clone(),
        total_available_permits: d.total_available_permits,
        batch_unacked: d.batch_unacked.clone(),
        fully_acked: d.fully_acked.clone(),
        mark_delete: d.mark_delete,
        redelivery_counts: d.redelivery_counts.clone(),
    }
}

/// The parts of a state that calls change. No transaction and no fault is ever staged.
fn copy(g: &SessionState) -> SessionState {
    let producer = |p: &ProducerState| ProducerState { next_entry_id: p.next_entry_id };
    let producers = g.producers.iter();
    let dispatchers = g.shared_dispatchers.iter();
    SessionState {
        ledger: g.ledger.clone(),
        producers: producers.map(|(id, (t, p))| (*id, (t.clone(), producer(p)))).collect(),
        producer_names: g.producer_names.clone(),
        consumers: g.consumers.clone(),
        shared_dispatchers: dispatchers.map(|(key, d)| (key.clone(), dispatcher(d))).collect(),
        per_partition: g.per_partition.clone(),
        ..SessionState::default()
    }
}

impl Reference {
    pub fn keep(&self) -> Kept {
        Kept(copy(&self.state.lock()))
    }

    /// The nanoseconds of one call on a kept state, and its answer.
    pub fn timed(&mut self, kept: &Kept, call: &Call) -> (f64, Outcome) {
        *self.state.lock() = copy(&kept.0);
        self.forget();
        let Some(frame) = frame_of(call) else {
            assert_eq!(*call, Call::Push, "opening is not timed");
            let start = Instant::now();
            push_pending(&self.state, &mut self.out, None, &self.deps);
            let time = start.elapsed().as_nanos() as f64;
            let messages = self.out.sent.iter().filter(|s| matches!(s, Sent::Message(..)));
            return (time, Outcome::done(messages.count() as i64));
        };
        let start = Instant::now();
        self.frame(&frame);
        let time = start.elapsed().as_nanos() as f64;
        (time, self.answer(call))
    }
    /// The nanoseconds of some calls one after the other on a kept state. Topics that are appended to
    /// have to have entries there.
    pub fn timed_row(&mut self, kept: &Kept, calls: &[Call]) -> f64 {
        *self.state.lock() = copy(&kept.0);
        self.forget();
        let frames: Vec<Option<Frame>> = calls.iter().map(frame_of).collect();
        let start = Instant::now();
        for frame in &frames {
            match frame {
                Some(frame) => self.frame(frame),
                None => push_pending(&self.state, &mut self.out, None, &self.deps),
            }
        }
        start.elapsed().as_nanos() as f64
    }

    /// The answers to some calls one after the other on a kept state.
    pub fn answers(&mut self, kept: &Kept, calls: &[Call]) -> Vec<u64> {
        *self.state.lock() = copy(&kept.0);
        calls.iter().map(|call| self.call(call).answer()).collect()
    }
}
