//! `reference trace`: the trace player (document 02's request A4) held against the model. A trace is
//! written here, read here by the paper's text and played on the model; the player has to print the
//! same for the same bytes.

mod blocks;
pub mod bytes;
mod limits;
mod on_model;
mod program;
pub mod random;
pub mod speed;

use std::io::Write;
use std::path::{Path, PathBuf};
use std::process::exit;

use crate::call::{Call, Group, Kind, Target};
use crate::refuse;
use bytes::trace;
use on_model::{Tally, play};
use program::Runs;

/// What document 02 prints of its example.
const EXAMPLE_TEXT: &str = "\
1 1 0 0
2 2 0 0
3 3 0 0
4 8 0 1
+ 7 1 0 1
";

/// The calls of document 02's example.
fn example() -> Vec<Call> {
    vec![
        Call::Append { topic: 1, ledger: 1, entry: 0, handle: 5, batch: 0 },
        Call::Subscribe { consumer: 7, kind: Kind::Shared, topic: 1, subscription: 1 },
        Call::Flow { consumer: 7, grant: 2 },
        Call::Push,
    ]
}

/// A trace with every kind of record, some done and some refused, and dispatches.
fn every_kind() -> Vec<u8> {
    let group = |entry, words| Group { ledger: 1, entry, words };
    let mut calls = example();
    calls.extend([
        Call::Append { topic: 1, ledger: 1, entry: 1, handle: 6, batch: 100 },
        Call::Push,
        Call::Ack { consumer: 7, groups: vec![group(1, vec![6, 1]), group(0, vec![])] },
        Call::Redeliver { consumer: 7, groups: vec![group(1, vec![])] },
        Call::Flow { consumer: 7, grant: 100 },
        Call::Push,
        Call::Subscribe { consumer: 8, kind: Kind::Plain, topic: 1, subscription: 2 },
        Call::Seek { consumer: 8, target: Target::Id(1, 1) },
        Call::Seek { consumer: 8, target: Target::Start },
        Call::Flow { consumer: 9, grant: 1 },
        Call::Close { consumer: 7 },
        Call::Push,
    ]);
    trace(&calls)
}

/// The bytes of document 02's example to standard output.
pub fn write_example() {
    if let Err(error) = std::io::stdout().write_all(&trace(&example())) {
        refuse(&format!("standard output: {error}"));
    }
}

/// Document 02's example, on both sides to the byte.
fn compare_example(runs: &mut Runs) -> Result<(), String> {
    let bytes = trace(&example());
    let text = play(&bytes).text;
    if text != EXAMPLE_TEXT {
        return Err(format!("the model prints of document 02's example:\n{text}"));
    }
    runs.same("document 02's example", &bytes)
}

/// Every cut of a good trace, from no byte to all.
fn compare_cuts(runs: &mut Runs) -> Result<(), String> {
    let bytes = every_kind();
    (0..=bytes.len()).try_for_each(|cut| runs.same(&format!("cut at {cut}"), &bytes[..cut]))
}

/// What the command was asked for.
struct Options {
    player: PathBuf,
    records: usize,
    seed: u64,
}

fn options(args: &[String], usage: &str) -> Options {
    let (mut player, mut records, mut seed) = (None, 10_000, 1);
    for pair in args.chunks(2) {
        let [name, value] = pair else { refuse(usage) };
        match name.as_str() {
            "--player" => player = Some(value),
            "--records" => records = value.parse().unwrap_or_else(|_| refuse(usage)),
            "--seed" => seed = value.parse().unwrap_or_else(|_| refuse(usage)),
            _ => refuse(usage),
        }
    }
    let Some(player) = player else { refuse(usage) };
    Options { player: found(player), records, seed }
}

/// The player's path, which has to be a file's.
fn found(player: &str) -> PathBuf {
    match Path::new(player).canonicalize() {
        Ok(path) if path.is_file() => path,
        _ => refuse(&format!("there is no player at {player}")),
    }
}

/// One part: its name and what was met, or the difference and the end.
fn part(name: &str, player: &Path, compare: impl FnOnce(&mut Runs) -> Result<(), String>) -> Tally {
    let mut runs = Runs::new(player);
    if let Err(difference) = compare(&mut runs) {
        println!("{name}: {difference}");
        exit(1)
    }
    println!("{name}: {}", runs.tally.text());
    runs.tally
}

/// What random records never reached, if anything.
fn missing(tally: &Tally) -> Vec<String> {
    let kinds = (1..9).filter(|kind| tally.kinds[*kind] == 0).map(|kind| format!("kind {kind}"));
    let refusals = (4..16).filter(|n| tally.refusals[*n] == 0).map(|n| format!("refusal {n}"));
    kinds.chain(refusals).collect()
}

pub fn command(args: &[String], usage: &str) {
    let Options { player, records, seed } = options(args, usage);
    part("example", &player, compare_example);
    part("limits", &player, limits::compare);
    part("cuts", &player, compare_cuts);
    part("blocks", &player, |runs| blocks::compare(runs, seed, &every_kind()));
    let name = format!("random, seed {seed}");
    let tally = part(&name, &player, |runs| random::compare(runs, seed, records));
    if !missing(&tally).is_empty() {
        println!("  never reached: {}", missing(&tally).join(", "));
    }
    println!("the player prints what the model gives");
}
