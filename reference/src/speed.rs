//! What a call costs: every export beside a bare pass over the same words, beside the check
//! alone, and beside broker.rs making the same call on the same state.
//!
//! A state is made by calls to the model and to broker.rs; the model's words are the store. Before
//! each call store and state are brought back, and of all rounds the shortest time is kept, so that
//! other work on the machine counts as little as it can. The library's rounds and broker.rs's take
//! turns, some at a time, so that neither side's memory drives the other's out of the caches. Answers
//! are compared, so that both sides are known to have done the same.

use std::hint::black_box;
use std::time::Instant;

use crate::broker::driver::{Kept, Reference};
use crate::c_side;
use crate::call::{Call, Group, Kind, Side, Target, list};
use crate::model::Model;
use crate::words;

pub const SIZES: [u64; 3] = [32, 256, 4096];
pub const TOPICS: u8 = 8;
pub const SUBSCRIPTION: u8 = 1;
/// A batch of the widest size, so that a mark with bits has four words.
pub const BATCH: u64 = 256;
/// What an ack in part leaves of any batch: all but its first message.
const PART: [u64; 4] = [u64::MAX - 1, u64::MAX, u64::MAX, u64::MAX];
const RECORD: usize = 13;
/// The goals, as times of the bare pass; push may have so many ns a dispatch more.
const CHECK_GOAL: f64 = 1.5;
const CALL_GOAL: f64 = 2.0;
const DISPATCH_GOAL: f64 = 20.0;
/// From so many dispatches on push is to be faster than broker.rs.
const FASTER_FROM: u64 = 32;

/// So often all is timed, one after the other, so that a busy second does not spoil a figure.
pub const SWEEPS: usize = 8;

/// The rounds of a sweep at a size.
pub fn rounds(entries: u64) -> usize {
    if entries < 1000 { 40 } else { 8 }
}

/// The same state on both sides.
pub struct World {
    pub model: Model,
    rust: Reference,
}

impl World {
    pub fn open(entries: u64) -> Self {
        let mut world = World { model: Model::new(), rust: Reference::new() };
        world.call(Call::Open { entries, leak: 0, noop: 0 });
        world
    }

    pub fn call(&mut self, call: Call) {
        let (ours, theirs) = (self.model.call(&call), self.rust.call(&call));
        assert_eq!((ours.number, ours.value), (0, theirs.value), "{call:?}");
    }

    pub fn append(&mut self, topic: u8, count: u64, batch: u64) {
        for entry in 0..count {
            self.call(Call::Append { topic, ledger: 1, entry, handle: 500 + entry, batch });
        }
    }

    pub fn subscribe(&mut self, consumer: u64, topic: u8) {
        let (kind, subscription) = (Kind::Shared, SUBSCRIPTION);
        self.call(Call::Subscribe { consumer, kind, topic, subscription });
    }

    /// Grants for `count` dispatches of one cost, shared out by turns from the first in the ring.
    pub fn flow(&mut self, ring: &[u64], count: u64, cost: u64) {
        for (i, consumer) in (0..).zip(ring) {
            let turns = (count + ring.len() as u64 - 1 - i) / ring.len() as u64;
            if turns > 0 {
                self.call(Call::Flow { consumer: *consumer, grant: (turns * cost) as u32 });
            }
        }
    }

    /// The first of a dispatcher's ring acknowledges.
    pub fn ack(&mut self, dispatcher: usize, groups: Vec<Group>) {
        let consumer = self.model.dispatchers[dispatcher].attached[0];
        for some in groups.chunks(64) {
            self.call(Call::Ack { consumer, groups: some.to_vec() });
        }
    }

    /// Every position held in a dispatcher that `wanted` takes goes to the queue.
    pub fn redeliver(&mut self, dispatcher: usize, wanted: impl Fn(usize) -> bool) {
        let held = self.model.dispatchers[dispatcher].in_flight.clone();
        for consumer in self.model.dispatchers[dispatcher].attached.clone() {
            let its = held.iter().filter(|(holder, p)| *holder == consumer && wanted(*p));
            let groups: Vec<Group> = its.map(|(_, p)| group(1, *p as u64, &[])).collect();
            for some in groups.chunks(64) {
                self.call(Call::Redeliver { consumer, groups: some.to_vec() });
            }
        }
    }

    fn words(&self) -> Vec<u64> {
        let mut words = Vec::new();
        words::encode(&self.model, &mut words);
        words
    }
}

pub fn group(ledger: u64, entry: u64, words: &[u64]) -> Group {
    Group { ledger, entry, words: words.to_vec() }
}

/// The first `count` messages of a topic, each acknowledged in part.
pub fn in_part(count: u64) -> Vec<Group> {
    (0..count).map(|k| group(1, k, &PART)).collect()
}

/// One message, held by one consumer: the least in which every call has something to do.
fn empty(entries: u64) -> World {
    let mut world = World::open(entries);
    world.append(0, 1, BATCH);
    world.subscribe(1, 0);
    world.flow(&[1], 1, BATCH);
    world.call(Call::Push);
    world
}

/// Eight topics of `count` batched messages, each with a shared subscription of every eighth
/// consumer. All was handed out and acknowledged in part, so that every mark has bits; half of it
/// waits to be sent again. No consumer has permits. Each subscription has so many outside ids.
/// `seen` is shown the state at each step.
fn fill(
    entries: u64,
    count: u64,
    consumers: u64,
    outside: u64,
    mut seen: impl FnMut(&'static str, &World),
) -> World {
    let mut world = World::open(entries);
    seen("opened", &world);
    for topic in 0..TOPICS {
        world.append(topic, count, BATCH);
    }
    seen("8 topics", &world);
    for consumer in 1..=consumers {
        world.subscribe(consumer, ((consumer - 1) % u64::from(TOPICS)) as u8);
    }
    seen("8 subscriptions", &world);
    let dispatchers = 0..usize::from(TOPICS);
    for d in dispatchers.clone() {
        let ring = world.model.dispatchers[d].attached.clone();
        world.flow(&ring, count, BATCH);
    }
    world.call(Call::Push);
    seen("all in flight", &world);
    dispatchers.clone().for_each(|d| world.redeliver(d, |position| position / 8 % 2 == 1));
    seen("half queued", &world);
    dispatchers.clone().for_each(|d| world.ack(d, in_part(count)));
    seen("bits in all marks", &world);
    for d in dispatchers {
        world.ack(d, (0..outside).map(|k| group(2, k, &[])).collect());
    }
    seen("64 outside ids each", &world);
    world
}

pub fn filled(entries: u64, count: u64, consumers: u64, outside: u64) -> World {
    fill(entries, count, consumers, outside, |_, _| ())
}

/// Eight topics of batches, each of another size than the one before it, all handed out: none of them
/// acknowledged, so that no mark has bits, or every one in part.
fn mixed(entries: u64, acknowledged: bool) -> World {
    let mut world = World::open(entries);
    let count = entries - 1;
    for (topic, consumer) in (0..TOPICS).zip(1..) {
        for entry in 0..count {
            let batch = 2 + 37 * entry % 255;
            world.call(Call::Append { topic, ledger: 1, entry, handle: 500 + entry, batch });
        }
        world.subscribe(consumer, topic);
        world.flow(&[consumer], count, BATCH);
    }
    world.call(Call::Push);
    if acknowledged {
        (0..usize::from(TOPICS)).for_each(|d| world.ack(d, in_part(count)));
    }
    world
}

/// One topic of messages that are no batches, four consumers without permits, and every message in
/// the queue or none handed out.
fn waiting(entries: u64, queued: bool) -> World {
    let mut world = World::open(entries);
    world.append(0, entries, 0);
    let ring = [1, 2, 3, 4];
    for consumer in ring {
        world.subscribe(consumer, 0);
    }
    if queued {
        world.flow(&ring, entries, 1);
        world.call(Call::Push);
        world.redeliver(0, |_| true);
    }
    world
}

/// The bare pass: every word read once, eight in a turn, so that it does not matter where in memory
/// the compiler puts the loop.
#[inline(never)]
fn pass(words: &[u64]) -> u64 {
    let eights = words.chunks_exact(8);
    let rest = eights.remainder().iter().fold(0, |all, word| all | word);
    let mut all = [0; 8];
    for eight in eights {
        all.iter_mut().zip(eight).for_each(|(all, word)| *all |= word);
    }
    all.iter().fold(rest, |all, word| all | word)
}

/// Makes a call; ack and redeliver read `lent`, push writes it.
pub fn perform(store: &mut [u64], call: &Call, lent: &mut [u64]) -> u64 {
    const THERE: &str = "LIBBROKER names an archive with the nine exports that take a store";
    let (s, n, l, m) = (store.as_mut_ptr(), store.len(), lent.as_mut_ptr(), lent.len());
    // Each pointer is to a slice that outlives the call, with its length beside it.
    unsafe {
        match call {
            Call::Open { entries, leak, noop } => {
                c_side::open().expect(THERE)(s, n, *entries, *leak, *noop)
            }
            Call::Append { topic, ledger, entry, handle, batch } => {
                c_side::append().expect(THERE)(s, n, *topic, *ledger, *entry, *handle, *batch)
            }
            Call::Subscribe { consumer, kind, topic, subscription } => {
                let kind = u64::from(*kind == Kind::Shared);
                c_side::subscribe().expect(THERE)(s, n, *consumer, kind, *topic, *subscription)
            }
            Call::Flow { consumer, grant } => c_side::flow().expect(THERE)(s, n, *consumer, *grant),
            Call::Ack { consumer, .. } => c_side::ack().expect(THERE)(s, n, *consumer, l, m),
            Call::Seek { consumer, target: Target::Start } => {
                c_side::seek().expect(THERE)(s, n, *consumer, 0, 0, 0)
            }
            Call::Seek { consumer, target: Target::Id(ledger, entry) } => {
                c_side::seek().expect(THERE)(s, n, *consumer, 1, *ledger, *entry)
            }
            Call::Redeliver { consumer, .. } => {
                c_side::redeliver().expect(THERE)(s, n, *consumer, l, m)
            }
            Call::Close { consumer } => c_side::close().expect(THERE)(s, n, *consumer),
            Call::Push => c_side::push().expect(THERE)(s, n, l, m),
        }
    }
}

/// A kept state on both sides, and the store that calls are made on.
pub struct Bench {
    pub words: Vec<u64>,
    pub store: Vec<u64>,
    pub list: Vec<u64>,
    pub rust: Reference,
    pub kept: Kept,
}

impl Bench {
    pub fn new(world: World) -> Self {
        let words = world.words();
        let kept = world.rust.keep();
        let room = RECORD * 8 * world.model.entries as usize;
        Bench { store: words.clone(), words, list: vec![0; room], rust: world.rust, kept }
    }

    fn bare(&mut self) -> f64 {
        self.store.copy_from_slice(&self.words);
        let start = Instant::now();
        black_box(pass(black_box(&self.store)));
        start.elapsed().as_nanos() as f64
    }

    /// The nanoseconds of one call to the library, and its answer.
    fn library(&mut self, call: &Call) -> (f64, u64) {
        let m = match call {
            Call::Ack { groups, .. } | Call::Redeliver { groups, .. } => {
                let words = list(groups);
                self.list[..words.len()].copy_from_slice(&words);
                words.len()
            }
            _ => self.list.len(),
        };
        self.store.copy_from_slice(&self.words);
        let start = Instant::now();
        let answer = black_box(perform(black_box(&mut self.store), call, &mut self.list[..m]));
        (start.elapsed().as_nanos() as f64, answer)
    }

    /// The check alone: an append of a batch size that is refused right after it.
    fn check(&mut self) -> f64 {
        let wrong = Call::Append { topic: 0, ledger: 1, entry: 0, handle: 0, batch: 257 };
        let (time, answer) = self.library(&wrong);
        assert_eq!(answer, 8, "the state's words spell it");
        time
    }

    /// A round of a call to the library.
    fn ours(&mut self, call: &Call, best: &mut Best) {
        let (time, answer) = self.library(call);
        best.library = best.library.min(time);
        best.answer = answer;
    }

    /// A round of the same call to broker.rs, which has no opening.
    fn theirs(&mut self, call: &Call, best: &mut Best) {
        if matches!(call, Call::Open { .. }) {
            return;
        }
        let (time, outcome) = self.rust.timed(&self.kept, call);
        best.rust = best.rust.min(time);
        assert_eq!(best.answer, outcome.answer(), "both sides do the same: {call:?}");
    }
}

/// The shortest times of one call.
#[derive(Clone, Copy)]
struct Best {
    library: f64,
    rust: f64,
    answer: u64,
}

const NONE: Best = Best { library: f64::INFINITY, rust: f64::INFINITY, answer: 0 };

/// The calls that are timed, on a state of `count` messages in topic 0 of which consumer 1 holds the
/// first. The store is open but for the one place that append and subscribe take.
fn calls(entries: u64, count: u64) -> Vec<(&'static str, Call)> {
    let one = |k: u64| vec![group(1, k, &[])];
    let some = (0..count.min(64)).map(|k| group(1, k, &[])).collect();
    let (consumer, kind, topic, subscription) = (1, Kind::Shared, 0, SUBSCRIPTION);
    vec![
        ("open", Call::Open { entries, leak: 0, noop: 0 }),
        ("append", Call::Append { topic, ledger: 1, entry: count, handle: 7, batch: 3 }),
        ("subscribe", Call::Subscribe { consumer: 99, kind, topic, subscription }),
        ("flow", Call::Flow { consumer, grant: 1 }),
        ("ack of 1", Call::Ack { consumer, groups: one(0) }),
        ("ack of 64", Call::Ack { consumer, groups: some }),
        ("seek", Call::Seek { consumer, target: Target::Id(1, count - 1) }),
        ("redeliver", Call::Redeliver { consumer, groups: one(0) }),
        ("close", Call::Close { consumer }),
        ("push of 0", Call::Push),
    ]
}

pub fn verdict(met: bool) -> &'static str {
    if met { "met" } else { "missed" }
}

/// A state with the calls that are timed on it, and the shortest times so far.
struct Case {
    entries: u64,
    name: &'static str,
    bench: Bench,
    calls: Vec<(&'static str, Call)>,
    bare: f64,
    check: f64,
    best: Vec<Best>,
}

impl Case {
    fn new(
        entries: u64,
        name: &'static str,
        calls: Vec<(&'static str, Call)>,
        world: World,
    ) -> Self {
        let best = vec![NONE; calls.len()];
        let bench = Bench::new(world);
        Case { entries, name, bench, calls, bare: f64::INFINITY, check: f64::INFINITY, best }
    }

    fn sweep(&mut self) {
        let bench = &mut self.bench;
        for _ in 0..rounds(self.entries) {
            self.bare = self.bare.min(bench.bare());
            self.check = self.check.min(bench.check());
            let calls = self.calls.iter().zip(&mut self.best);
            calls.for_each(|((_, call), best)| bench.ours(call, best));
        }
        for _ in 0..rounds(self.entries) {
            let calls = self.calls.iter().zip(&mut self.best);
            calls.for_each(|((_, call), best)| bench.theirs(call, best));
        }
    }

    /// Every call, after the bare pass and the check.
    fn print(&self) {
        let (bare, check) = (self.bare, self.check);
        let head = |what: &str| format!("{:>5}  {:<8}{what:<10}", self.entries, self.name);
        println!("{}{bare:>11.0}", head("bare pass"));
        let met = verdict(check / bare <= CHECK_GOAL);
        println!("{}{check:>11.0}{:>8.2}{met:>41}", head("check"), check / bare);
        for ((what, _), best) in self.calls.iter().zip(&self.best) {
            let (time, rust) = (best.library, best.rust);
            let (ratio, met) = (time / bare, verdict(time / bare <= CALL_GOAL));
            print!("{}{time:>11.0}{ratio:>8.2}{:>8.2}", head(what), time / check);
            match rust.is_finite() {
                true => println!("{rust:>14.0}{:>11.2}{met:>8}", time / rust),
                false => println!("{met:>33}"),
            }
        }
    }

    /// The one push of a state in which `count` are due.
    fn print_push(&self, count: u64) {
        let (bare, check, time, rust) =
            (self.bare, self.check, self.best[0].library, self.best[0].rust);
        let goal = verdict(time <= CALL_GOAL * bare + DISPATCH_GOAL * count as f64);
        let faster = if count < FASTER_FROM { "-" } else { verdict(time < rust) };
        println!(
            "{:>5}  {:<8}{count:>5}{bare:>10.0}{check:>10.0}{time:>10.0}{:>8.2}{:>9.1}{rust:>14.0}{:>11.2}{goal:>8}{faster:>8}",
            self.entries,
            self.name,
            time / bare,
            (time - check) / count as f64,
            time / rust,
        );
    }
}

/// Each size empty, half full, full, full with outside ids, and full of batches without bits.
fn cases() -> Vec<Case> {
    let mut cases = Vec::new();
    for e in SIZES {
        let mut one = calls(e, 1);
        one.retain(|(name, _)| *name != "ack of 64");
        cases.push(Case::new(e, "empty", one, empty(e)));
        cases.push(Case::new(e, "half", calls(e, e / 2), filled(e, e / 2, 16, 0)));
        cases.push(Case::new(e, "full", calls(e, e - 1), filled(e, e - 1, 31, 0)));
        cases.push(Case::new(e, "outside", calls(e, e - 1), filled(e, e - 1, 31, 64)));
        let part = Call::Ack { consumer: 1, groups: in_part((e - 1).min(64)) };
        cases.push(Case::new(e, "mixed", vec![("part of 64", part)], mixed(e, false)));
    }
    cases
}

/// Push from the queue and from the ledger, of 1, 32 and E messages, with how many are due.
fn pushes() -> Vec<(u64, Case)> {
    let mut cases = Vec::new();
    for entries in SIZES {
        for (from, queued) in [("queue", true), ("ledger", false)] {
            let mut counts = vec![1, FASTER_FROM, entries];
            counts.dedup();
            for count in counts {
                let mut world = waiting(entries, queued);
                world.flow(&[1, 2, 3, 4], count, 1);
                cases.push((count, Case::new(entries, from, vec![("push", Call::Push)], world)));
            }
        }
    }
    cases
}

/// Fills the two kinds of list that calls do not fill here: every ring to 32 ids, by ids that are not
/// live, and every consumer's nacked positions to 64. The words still spell a state.
fn fuller(entries: usize, words: &mut [u64]) {
    for i in 0..words[16] as usize {
        words[17 + 72 * i + 6] = 64;
    }
    for d in 0..words[2354 + 32 * entries] as usize {
        let ring = 2355 + 32 * entries + (176 + 9 * entries) * d + 11;
        for slot in words[ring] as usize..32 {
            words[ring + 1 + slot] = 1000 + slot as u64;
        }
        words[ring] = 32;
    }
}

/// A size's store filled step by step, with the shortest times of the check so far.
struct Parts {
    entries: u64,
    bench: Bench,
    steps: Vec<(&'static str, Vec<u64>, f64)>,
    bare: f64,
}

impl Parts {
    fn new(entries: u64) -> Self {
        let mut steps = Vec::new();
        let mut keep = |name, words| steps.push((name, words, f64::INFINITY));
        let world = fill(entries, entries - 1, 31, 64, |name, world| keep(name, world.words()));
        let mut last = world.words();
        fuller(entries as usize, &mut last);
        keep("every list full", last);
        keep("sizes all different", mixed(entries, true).words());
        Parts { entries, bench: Bench::new(world), steps, bare: f64::INFINITY }
    }

    fn sweep(&mut self) {
        for _ in 0..rounds(self.entries) {
            self.bare = self.bare.min(self.bench.bare());
            for (_, words, best) in &mut self.steps {
                std::mem::swap(words, &mut self.bench.words);
                *best = best.min(self.bench.check());
                std::mem::swap(words, &mut self.bench.words);
            }
        }
    }
}

pub fn bench() {
    let (mut cases, mut pushes) = (cases(), pushes());
    let mut parts = SIZES.map(Parts::new);
    for _ in 0..SWEEPS {
        cases.iter_mut().for_each(Case::sweep);
        pushes.iter_mut().for_each(|(_, case)| case.sweep());
        parts.iter_mut().for_each(Parts::sweep);
    }

    println!("1. Each call: ns, and as times of the bare pass, of the check, of broker.rs\n");
    println!(
        "    E  store   call               ns  x bare x check  broker.rs ns x broker.rs    goal"
    );
    cases.iter().for_each(Case::print);

    println!(
        "\n2. Push, one topic and four consumers; `ns each` is what a dispatch adds to the check\n"
    );
    println!(
        "    E  from     made   bare ns  check ns   push ns  x bare  ns each  broker.rs ns x broker.rs    goal  faster"
    );
    pushes.iter().for_each(|(count, case)| case.print_push(*count));

    println!("\n3. Growth with E: picoseconds for each needed word, the store full\n");
    println!("call      {:>11}{:>11}{:>11}", "E = 32", "E = 256", "E = 4096");
    let full: Vec<&Case> = cases.iter().filter(|case| case.name == "full").collect();
    let row = |name: &str, time: &dyn Fn(&Case) -> f64| {
        let each = |c: &&Case| 1000.0 * time(c) / words::needed(c.entries) as f64;
        let cells: Vec<String> = full.iter().map(|c| format!("{:>11.0}", each(c))).collect();
        println!("{name:<10}{}", cells.concat());
    };
    row("bare pass", &|case| case.bare);
    row("check", &|case| case.check);
    for (i, (name, _)) in full[0].calls.iter().enumerate() {
        row(name, &|case| case.best[i].library);
    }

    println!("\n4. The check as a store is filled step by step: ns, and times of the bare pass\n");
    println!("store so far        {:>18}{:>18}{:>18}", "E = 32", "E = 256", "E = 4096");
    for (i, (name, _, _)) in parts[0].steps.iter().enumerate() {
        let cell = |p: &Parts| format!("{:>11.0}{:>7.2}", p.steps[i].2, p.steps[i].2 / p.bare);
        let cells: Vec<String> = parts.iter().map(cell).collect();
        println!("{name:<20}{}", cells.concat());
    }
}
