//! Counts which situations a comparison reached. A comparison that never drives permits
//! negative, say, would prove little; the counts are printed, and a situation that was
//! never reached is named.

use crate::call::{Call, Kind, OPERATIONS, Outcome};
use crate::model::Model;

const SITUATIONS: [&str; 16] = [
    "refusal 4",
    "shared dispatches",
    "plain dispatches",
    "dispatches with ack set",
    "dispatches with redelivery count",
    "permits below 0 after dispatch",
    "idle pushes",
    "mark-delete moves",
    "acks from a plain consumer",
    "complete ids outside the ledger",
    "complete entries with bits",
    "total at or below 0 with permits left",
    "nacked entries",
    "consumers at the limit",
    "live ids subscribed again",
    "no-op subscribes",
];

#[derive(Default)]
pub struct Coverage {
    operations: [usize; OPERATIONS.len()],
    situations: [usize; SITUATIONS.len()],
    /// How often each refusal was given.
    refusals: [usize; 16],
    /// Seeks past the end.
    past_the_end: usize,
    skip: usize,
}

impl Coverage {
    /// Notes what the model tells of a call before it is made.
    pub fn before(&mut self, call: &Call, model: &Model) {
        match call {
            Call::Subscribe { consumer, .. } if model.live(*consumer).is_some() => {
                self.situations[if model.noop { 15 } else { 14 }] += 1;
            }
            Call::Seek { consumer, target } => {
                self.past_the_end += usize::from(model.seeks_past_the_end(*consumer, *target));
            }
            _ => {}
        }
    }

    /// Notes a call, broker.rs's outcome of it, and the model after it.
    pub fn note(&mut self, call: &Call, outcome: &Outcome, model: &Model) {
        self.operations[call.operation()] += 1;
        let kind_of = |id: u64| model.live(id).map(|slot| model.consumers[slot].kind);
        let shared = |id: u64| kind_of(id) == Some(Kind::Shared);
        let s = &mut self.situations;
        s[0] += usize::from(outcome.number == 4);
        self.refusals[usize::from(outcome.number.min(15))] += 1;
        for record in &outcome.records {
            s[1] += usize::from(shared(record.consumer));
            s[2] += usize::from(!shared(record.consumer));
            s[3] += usize::from(!record.ack_set.is_empty());
            s[4] += usize::from(record.redelivery_count > 0);
            s[5] += usize::from(record.permits < 0);
        }
        match call {
            Call::Push => s[6] += usize::from(outcome.value == 0),
            Call::Ack { consumer, .. } if outcome.number == 0 => {
                s[7] += (outcome.value % 2) as usize;
                s[8] += usize::from(!shared(*consumer));
            }
            _ => {}
        }
        // What the state holds is looked at after every 16th call.
        self.skip = (self.skip + 1) % 16;
        if self.skip == 0 {
            self.note_state(model);
        }
    }

    fn note_state(&mut self, model: &Model) {
        let s = &mut self.situations;
        for d in &model.dispatchers {
            s[9] += d.outside.len();
            s[10] += d.marks.iter().filter(|m| m.fully_acked && m.bits.is_some()).count();
            let permits = d.attached.iter().filter_map(|id| model.live(*id));
            let any = permits.into_iter().any(|slot| model.consumers[slot].permits > 0);
            s[11] += usize::from(any && d.total_available_permits <= 0);
        }
        s[12] += model.consumers.iter().map(|c| c.nacked.len()).sum::<usize>();
        s[13] += usize::from(model.consumers.len() == 32);
    }

    pub fn operations_text(&self) -> String {
        let counts = OPERATIONS.iter().zip(self.operations);
        counts.map(|(name, n)| format!("{name} {n}")).collect::<Vec<_>>().join(", ")
    }

    pub fn situations_text(&self) -> String {
        let counts = SITUATIONS.iter().zip(self.situations);
        counts.map(|(name, n)| format!("{name} {n}")).collect::<Vec<_>>().join(", ")
    }

    /// What broker.rs does not have, and how often: refusals above 4, seeks past the end. Empty
    /// inside the comparison domain.
    pub fn outside_text(&self) -> String {
        let refusals = (5..16).map(|n| (format!("refusal {n}"), self.refusals[n]));
        let all = refusals.chain([("seeks past the end".to_owned(), self.past_the_end)]);
        let reached = all.filter(|(_, n)| *n > 0).map(|(name, n)| format!("{name} ({n})"));
        reached.collect::<Vec<_>>().join(", ")
    }

    /// The situations that were never reached.
    pub fn missing(&self) -> Vec<&'static str> {
        let counts = SITUATIONS.iter().zip(self.situations);
        counts.filter(|(_, n)| *n == 0).map(|(name, _)| *name).collect()
    }
}
