//! A flow beside the check, and a push of one dispatch, by what longer rows take more than short ones; and
//! the flows of the plain counter in C (counter.c).

use std::time::Instant;

use super::loads::{Load, State};
use super::{Row, nanoseconds};
use crate::call::{Call, Kind};
use crate::model::Model;
use crate::speed::{Bench, rounds, verdict};

/// The flows of the two rows, and the calls of the two with pushes: half of them are pushes.
const FLOWS: [usize; 2] = [16, 16_384];
const PUSHES: [usize; 2] = [16, 64];
/// The goal, as times of the plain counter.
const GOAL: f64 = 3.0;

/// The struct of counter.c.
#[repr(C)]
#[derive(Clone, Copy, Default)]
struct Consumer {
    id: u64,
    topic: u64,
    subscription: u64,
    shared: u64,
    permits: i64,
    cursor: u64,
}

/// The struct of counter.c.
#[repr(C)]
#[derive(Clone, Copy, Default)]
struct Subscription {
    topic: u64,
    subscription: u64,
    total: i64,
}

/// The struct of counter.c.
#[repr(C)]
#[derive(Clone)]
struct Counter {
    consumers: usize,
    subscriptions: usize,
    consumer: [Consumer; 32],
    subscription: [Subscription; 8],
}

type Flow = unsafe extern "C" fn(*mut Counter, u64, u32) -> u64;

/// The counter's flow, if it was linked: `./bench` puts it beside the library.
#[cfg(has_plain_flow)]
fn plain_flow() -> Option<Flow> {
    unsafe extern "C" {
        fn plain_flow(counter: *mut Counter, id: u64, grant: u32) -> u64;
    }
    Some(plain_flow)
}

#[cfg(not(has_plain_flow))]
fn plain_flow() -> Option<Flow> {
    None
}

impl Counter {
    /// What a state has of consumers and subscriptions.
    fn of(model: &Model) -> Self {
        let (consumer, subscription) = (Default::default(), Default::default());
        let (consumers, subscriptions) = (model.consumers.len(), model.dispatchers.len());
        let mut counter = Counter { consumers, subscriptions, consumer, subscription };
        for (c, to) in model.consumers.iter().zip(&mut counter.consumer) {
            *to = Consumer {
                id: c.id,
                topic: u64::from(c.topic),
                subscription: u64::from(c.subscription),
                shared: u64::from(c.kind == Kind::Shared),
                permits: c.permits,
                cursor: c.cursor as u64,
            };
        }
        for (d, to) in model.dispatchers.iter().zip(&mut counter.subscription) {
            let (topic, subscription) = (u64::from(d.topic), u64::from(d.subscription));
            *to = Subscription { topic, subscription, total: d.total_available_permits };
        }
        counter
    }
}

/// The flows of a row.
fn flows(calls: &[Call]) -> Vec<(u64, u32)> {
    let flow = |call: &Call| match call {
        Call::Flow { consumer, grant } => (*consumer, *grant),
        _ => unreachable!("a row of flows"),
    };
    calls.iter().map(flow).collect()
}

/// The rows of a size, and the shortest times so far.
pub struct Beside {
    entries: u64,
    bench: Bench,
    counter: Counter,
    flows: [Row; 2],
    plain: [f64; 2],
    pushes: [Row; 2],
    rust_flows: [f64; 2],
    rust_pushes: [f64; 2],
}

/// What each call between the two rows takes.
fn slope(times: [f64; 2], calls: [usize; 2]) -> f64 {
    (times[1] - times[0]) / (calls[1] - calls[0]) as f64
}

impl Beside {
    pub fn new(entries: u64) -> Self {
        let world = State::Half.world(entries);
        let counter = Counter::of(&world.model);
        let mut flows = FLOWS.map(|length| Row::new(Load::Flow.calls(&world.model, length)));
        let mut pushes = PUSHES.map(|length| Row::new(Load::PushOf1.calls(&world.model, length)));
        let mut bench = Bench::new(world);
        flows.iter_mut().chain(&mut pushes).for_each(|row| row.agree(&mut bench));
        let (plain, none) = ([f64::INFINITY; 2], [f64::INFINITY; 2]);
        let (rust_flows, rust_pushes) = (none, none);
        Beside { entries, bench, counter, flows, plain, pushes, rust_flows, rust_pushes }
    }

    pub fn sweep(&mut self) {
        let (bench, rounds) = (&mut self.bench, rounds(self.entries));
        for row in self.flows.iter_mut().chain(&mut self.pushes) {
            for _ in 0..rounds {
                row.best = row.best.min(row.time(bench));
            }
        }
        for (row, best) in self.flows.iter_mut().zip(&mut self.plain) {
            for _ in 0..rounds {
                *best = best.min(plain(&self.counter, row));
            }
        }
        let rust = self.flows.iter().zip(&mut self.rust_flows);
        for (row, best) in rust.chain(self.pushes.iter().zip(&mut self.rust_pushes)) {
            for _ in 0..rounds {
                *best = best.min(bench.rust.timed_row(&bench.kept, &row.calls));
            }
        }
    }

    fn print(&self) {
        let best = |rows: &[Row; 2]| [rows[0].best, rows[1].best];
        let flow = slope(best(&self.flows), FLOWS);
        // Half of the calls are flows.
        let push = 2.0 * slope(best(&self.pushes), PUSHES) - flow;
        let (plain, rust_flow) = (slope(self.plain, FLOWS), slope(self.rust_flows, FLOWS));
        let rust_push = 2.0 * slope(self.rust_pushes, PUSHES) - rust_flow;
        let told = if plain.is_finite() {
            format!("{plain:>10.2}{:>11.2}{:>8}", flow / plain, verdict(flow <= GOAL * plain))
        } else {
            format!("{:>10}{:>11}{:>8}", "-", "-", "-")
        };
        println!(
            "{:>5}{flow:>10.2}{told}{:>16}{:>12}{:>16}",
            self.entries,
            nanoseconds(rust_flow),
            nanoseconds(push),
            nanoseconds(rust_push)
        );
    }
}

/// The nanoseconds of a row's flows by the plain counter, which has to give the row's answers.
fn plain(counter: &Counter, row: &mut Row) -> f64 {
    let Some(flow) = plain_flow() else { return f64::INFINITY };
    let (mut counter, flows) = (counter.clone(), flows(&row.calls));
    let mut answers = vec![0; flows.len()];
    let start = Instant::now();
    for (answer, (id, grant)) in answers.iter_mut().zip(&flows) {
        // The counter outlives the call.
        *answer = unsafe { flow(&mut counter, *id, *grant) };
    }
    let time = start.elapsed().as_nanos() as f64;
    assert_eq!(answers, row.answers, "the plain counter gives the same");
    time
}

pub fn print(sizes: &[Beside]) {
    println!(
        "\n6. Beside the check: ns a flow, by rows of {} and {}, and ns a push with its one dispatch, by rows of {} \
         and\n   {} flows and pushes by turns; a plain counter in C makes the same flows, and the goal is at most \
         {GOAL:.1} times it\n",
        FLOWS[0], FLOWS[1], PUSHES[0], PUSHES[1]
    );
    println!(
        "    E      flow   plain C  x plain C    goal  broker.rs flow   push of 1  broker.rs push"
    );
    sizes.iter().for_each(Beside::print);
}
