//! What the player costs: its whole run over a trace, start and all, beside the same calls made
//! through the library on a store of the same size, in the same run. The shortest of several times is
//! kept. In each run the player has to print the model's text.

use std::hint::black_box;
use std::path::Path;
use std::process::exit;
use std::time::Instant;

use super::bytes::trace;
use super::on_model::{OPEN, ROOM, play};
use super::program::{Feed, Stored, run};
use crate::c_side;
use crate::call::{Call, Group, Kind, list};
use crate::refuse;
use crate::speed::{perform, verdict};
use crate::words::needed;

const RECORDS: usize = 100_000;
/// The goal, as times of the library's calls.
const GOAL: f64 = 2.0;
/// So often all is timed, one after the other.
const ROUNDS: usize = 7;
/// Traces of so many bytes are not handed over in small pieces.
const MOST_SMALL: usize = 10_000_000;
/// The words of a dispatch.
const RECORD: usize = 13;

/// A trace to be timed.
struct Load {
    name: &'static str,
    calls: Vec<Call>,
    dispatches: usize,
    text: String,
    bytes: Vec<u8>,
    stored: Stored,
}

impl Load {
    fn new(name: &'static str, before: Vec<Call>, again: &[Call]) -> Result<Self, String> {
        let calls: Vec<Call> =
            before.into_iter().chain(again.iter().cloned().cycle()).take(RECORDS).collect();
        let bytes = trace(&calls);
        let played = play(&bytes);
        let stored = Stored::new(&bytes)?;
        let dispatches = played.tally.dispatches;
        Ok(Load { name, calls, dispatches, text: played.text, bytes, stored })
    }

    /// The nanoseconds a record of the player's whole run.
    fn player(&self, player: &Path, feed: Feed) -> Result<f64, String> {
        let ran = run(player, &self.bytes, feed)?;
        match ran.out == self.text.as_bytes() {
            true => Ok(ran.time.as_nanos() as f64 / RECORDS as f64),
            false => Err(format!("{}: the player printed another text", self.name)),
        }
    }

    /// The nanoseconds a record of the calls through the library.
    fn library(&self) -> f64 {
        let Call::Open { entries, .. } = OPEN else { unreachable!("an open") };
        let mut store = vec![0; needed(entries)];
        let mut room = vec![0; RECORD * ROOM];
        let mut lists: Vec<Vec<u64>> = self.calls.iter().map(lent).collect();
        assert_eq!(perform(&mut store, &OPEN, &mut []), 0, "the store is opened");
        let mut made = 0;
        let start = Instant::now();
        for (call, lent) in self.calls.iter().zip(&mut lists) {
            let list = if *call == Call::Push { &mut room } else { lent };
            let answer = black_box(perform(black_box(&mut store), call, list));
            made += if *call == Call::Push { (answer >> 8) as usize } else { 0 };
        }
        let time = start.elapsed().as_nanos() as f64 / RECORDS as f64;
        assert_eq!(made, self.dispatches, "{}: the library makes the same dispatches", self.name);
        time
    }
}

/// The list that a call reads.
fn lent(call: &Call) -> Vec<u64> {
    match call {
        Call::Ack { groups, .. } | Call::Redeliver { groups, .. } => list(groups),
        _ => Vec::new(),
    }
}

/// One shared consumer, 32 messages that are no batches, all of them handed out to it.
fn handed_out() -> Vec<Call> {
    let append = |entry| Call::Append { topic: 1, ledger: 1, entry, handle: entry, batch: 0 };
    let mut calls: Vec<Call> = (0..32).map(append).collect();
    calls.push(Call::Subscribe { consumer: 7, kind: Kind::Shared, topic: 1, subscription: 1 });
    calls.extend([Call::Flow { consumer: 7, grant: u32::MAX }, Call::Push]);
    calls
}

fn loads() -> Result<Vec<Load>, String> {
    let flow = Call::Flow { consumer: 7, grant: 1 };
    let group = |entry| Group { ledger: 1, entry, words: Vec::new() };
    let back = |count| Call::Redeliver { consumer: 7, groups: (0..count).map(group).collect() };
    Ok(vec![
        Load::new("flow, push of none", handed_out(), &[flow, Call::Push])?,
        Load::new("redeliver 1, push of 1", handed_out(), &[back(1), Call::Push])?,
        Load::new("redeliver 32, push of 32", handed_out(), &[back(32), Call::Push])?,
    ])
}

/// A way in which a trace comes to the player, and whether the goal is for it: in small pieces the
/// writing costs more than the calls.
struct Way<'a> {
    name: &'static str,
    feed: Feed<'a>,
    judged: bool,
    best: f64,
}

fn ways(load: &Load) -> Vec<Way<'_>> {
    let way = |name, feed, judged| Way { name, feed, judged, best: f64::INFINITY };
    let mut ways = vec![
        way("file", Feed::File(load.stored.path()), true),
        way("pipe, 65,536 bytes", Feed::Pieces(65_536), true),
        way("pipe, 4,096 bytes", Feed::Pieces(4096), true),
    ];
    if load.bytes.len() < MOST_SMALL {
        ways.push(way("pipe, 11 bytes", Feed::Pieces(11), false));
    }
    ways
}

/// The library's time and the ways with theirs, taken by turns.
fn measure<'a>(load: &'a Load, player: &Path) -> Result<(f64, Vec<Way<'a>>), String> {
    let (mut library, mut ways) = (f64::INFINITY, ways(load));
    for _ in 0..ROUNDS {
        library = library.min(load.library());
        for way in &mut ways {
            way.best = way.best.min(load.player(player, way.feed)?);
        }
    }
    Ok((library, ways))
}

pub fn bench(args: &[String], usage: &str) {
    let [flag, player] = args else { refuse(usage) };
    if flag != "--player" {
        refuse(usage);
    }
    let player = super::found(player);
    if !c_side::missing().is_empty() {
        refuse("LIBBROKER named no archive with the nine exports when this was built");
    }
    if let Err(message) = table(&player) {
        println!("{message}");
        exit(1)
    }
}

fn table(player: &Path) -> Result<(), String> {
    println!(
        "The player on {RECORDS} records, start and end of the program included, its output a pipe\n\
         that is read; ns for each record, the shortest of {ROUNDS} runs; the goal is at most {GOAL:.1}\n\
         times the library's calls\n"
    );
    println!(
        "records                   dispatches  input                      ns  x library    goal"
    );
    for load in loads()? {
        let (library, ways) = measure(&load, player)?;
        let head = format!("{:<26}{:>10}", load.name, load.dispatches);
        println!("{head}  {:<20}{library:>9.0}", "library");
        for Way { name, judged, best, .. } in ways {
            let ratio = best / library;
            let met = if judged { verdict(ratio <= GOAL) } else { "-" };
            println!("{head}  {name:<20}{best:>9.0}{ratio:>11.2}{met:>8}");
        }
    }
    Ok(())
}
