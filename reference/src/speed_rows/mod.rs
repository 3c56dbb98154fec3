//! What a call costs in a row under one check: `broker_calls` beside the single exports and beside
//! broker.rs, each making the same calls on the same state; and a flow beside the check, next to a plain
//! counter in C. The state is brought back before each row, outside the timing, and of all rounds the
//! shortest time is kept, as in the other tables.

mod counter;
mod loads;

use std::hint::black_box;
use std::time::Instant;

use crate::c_side;
use crate::call::{Call, list};
use crate::model::Model;
use crate::refuse;
use crate::rows::script::{Record, joined};
use crate::speed::{Bench, SIZES, SWEEPS, perform, rounds, verdict};
use loads::{LOADS, Load, State};

/// The calls in a row.
const LENGTHS: [usize; 5] = [1, 4, 16, 64, 256];
/// The row of which the calls are made singly and by broker.rs too.
const COMPARED: usize = 64;
/// The size at which a row is to be ahead of broker.rs.
const JUDGED: u64 = 32;

/// Some calls, the words that ask for them, and room for their answers.
struct Row {
    calls: Vec<Call>,
    script: Vec<u64>,
    /// The lists that acks and redelivers read.
    lists: Vec<Vec<u64>>,
    answers: Vec<u64>,
    best: f64,
}

impl Row {
    fn new(calls: Vec<Call>) -> Self {
        let records: Vec<Record> = calls.iter().map(Record::of).collect();
        let lists = calls.iter().map(|call| match call {
            Call::Ack { groups, .. } | Call::Redeliver { groups, .. } => list(groups),
            _ => Vec::new(),
        });
        let (script, lists, answers) = (joined(&records), lists.collect(), vec![0; calls.len()]);
        Row { calls, script, lists, answers, best: f64::INFINITY }
    }

    /// The nanoseconds of the row by `broker_calls`.
    fn time(&mut self, bench: &mut Bench) -> f64 {
        let make = c_side::calls().expect("asked for before");
        bench.store.copy_from_slice(&bench.words);
        let (store, n) = (black_box(bench.store.as_mut_ptr()), bench.store.len());
        let (script, s) = (black_box(self.script.as_ptr()), self.script.len());
        let (answers, a) = (self.answers.as_mut_ptr(), self.answers.len());
        let (list, m) = (bench.list.as_mut_ptr(), bench.list.len());
        let start = Instant::now();
        // Each pointer is to a vector that outlives the call, with its length beside it.
        let answer = black_box(unsafe { make(store, n, script, s, answers, a, list, m) });
        let time = start.elapsed().as_nanos() as f64;
        assert_eq!(answer, 256 * self.calls.len() as u64, "the row is made");
        time
    }

    /// The nanoseconds of the same calls, each by its own export.
    fn time_singly(&mut self, bench: &mut Bench) -> f64 {
        bench.store.copy_from_slice(&bench.words);
        let start = Instant::now();
        for (i, call) in self.calls.iter().enumerate() {
            let lent = if *call == Call::Push { &mut bench.list } else { &mut self.lists[i] };
            self.answers[i] = black_box(perform(black_box(&mut bench.store), call, lent));
        }
        start.elapsed().as_nanos() as f64
    }

    /// All calls are done, and to the same by all sides.
    fn agree(&mut self, bench: &mut Bench) {
        self.time(bench);
        let (row, store) = (self.answers.clone(), bench.store.clone());
        self.time_singly(bench);
        assert!(row == self.answers && store == bench.store, "a row does what its calls do");
        assert_eq!(row, bench.rust.answers(&bench.kept, &self.calls), "broker.rs does the same");
        assert!(row.iter().all(|answer| answer % 256 == 0), "every call is done");
    }

    fn each(&self) -> f64 {
        self.best / self.calls.len() as f64
    }
}

/// A kind of row at a size: a row of each length with the place of its state, and the shortest times of
/// the row that is compared.
struct Line {
    name: &'static str,
    load: Load,
    rows: Vec<(usize, Row)>,
    single: f64,
    rust: f64,
}

/// A size with the states that its rows are made on.
struct Size {
    entries: u64,
    states: Vec<(State, Model, Bench)>,
    lines: Vec<Line>,
}

impl Size {
    fn new(entries: u64) -> Self {
        let mut size = Size { entries, states: Vec::new(), lines: Vec::new() };
        for (name, load) in LOADS {
            let rows = LENGTHS.map(|length| size.row(load, length)).into_iter().collect();
            size.lines.push(Line { name, load, rows, single: f64::INFINITY, rust: f64::INFINITY });
        }
        size
    }

    fn row(&mut self, load: Load, length: usize) -> (usize, Row) {
        let place = self.place(load.state(self.entries, length));
        let (_, model, bench) = &mut self.states[place];
        let mut row = Row::new(load.calls(model, length));
        row.agree(bench);
        (place, row)
    }

    /// The place of a state, which is made when it is first asked for.
    fn place(&mut self, state: State) -> usize {
        let known = self.states.iter().position(|(its, _, _)| *its == state);
        known.unwrap_or_else(|| {
            let world = state.world(self.entries);
            self.states.push((state, world.model.clone(), Bench::new(world)));
            self.states.len() - 1
        })
    }

    fn sweep(&mut self) {
        for line in &mut self.lines {
            for (place, row) in &mut line.rows {
                let bench = &mut self.states[*place].2;
                for _ in 0..rounds(self.entries) {
                    row.best = row.best.min(row.time(bench));
                }
                if row.calls.len() == COMPARED {
                    for _ in 0..rounds(self.entries) {
                        line.single = line.single.min(row.time_singly(bench));
                    }
                    for _ in 0..rounds(self.entries) {
                        let time = bench.rust.timed_row(&bench.kept, &row.calls);
                        line.rust = line.rust.min(time);
                    }
                }
            }
        }
    }

    fn print(&self) {
        for line in &self.lines {
            print!("{:>5}  {:<11}", self.entries, line.name);
            for (_, row) in &line.rows {
                let other = line.load.is_other(self.entries, row.calls.len());
                print!("{:>9}{}", nanoseconds(row.each()), if other { "*" } else { " " });
            }
            let compared = line.rows.iter().find(|(_, row)| row.calls.len() == COMPARED);
            let time = compared.expect("one of the lengths").1.each();
            let (single, rust) = (line.single / COMPARED as f64, line.rust / COMPARED as f64);
            let goal = if self.entries == JUDGED { verdict(time < rust) } else { "-" };
            let (to_single, to_rust) = (time / single, time / rust);
            print!("{:>9}{:>10.3}", nanoseconds(single), to_single);
            println!("{:>14}{to_rust:>13.3}{goal:>8}", nanoseconds(rust));
        }
    }
}

/// Three figures or more.
fn nanoseconds(time: f64) -> String {
    if time < 100.0 { format!("{time:.1}") } else { format!("{time:.0}") }
}

const HEADING: &str = "
5. Calls in a row under one check: ns a call in rows of 1 to 256, the store half full; the calls of the row
   of 64 made one by one through the single exports, and by broker.rs; the goal is ahead of broker.rs
";

const NOTES: &str = "
   append: to the 8 topics by turns. subscribe: new ids; from 64 on 16 of them again and again, each
   replacing the live one (*). flow: to the 16 consumers by turns. ack of 1, redeliver: each of another
   message that is held. seek: to the last message or the one before it. close: consumers that hold messages;
   from 64 on close and subscribe by turns (*). push of 0: nothing is due. flow, push: by turns, a dispatch
   due by the flow before it; in the row of 1 the push alone. With E = 32 there are 256 messages at most, so
   rows of 256 have other stores (*): append one without messages, ack and redeliver one with all 256 held,
   flow and push one with its 128 messages queued.";

pub fn bench() {
    if c_side::calls().is_none() {
        refuse("LIBBROKER named no archive with broker_calls when this was built");
    }
    let mut sizes = SIZES.map(Size::new);
    let mut counters = SIZES.map(counter::Beside::new);
    for _ in 0..SWEEPS {
        sizes.iter_mut().for_each(Size::sweep);
        counters.iter_mut().for_each(counter::Beside::sweep);
    }
    println!("{HEADING}");
    print!("    E  calls      ");
    LENGTHS.iter().for_each(|length| print!("{length:>9} "));
    println!("   single  x single  broker.rs ns  x broker.rs    goal");
    sizes.iter().for_each(Size::print);
    println!("{NOTES}");
    counter::print(&counters);
}
