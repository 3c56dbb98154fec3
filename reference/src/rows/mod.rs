//! `reference rows`: random rows of calls through `broker_calls`, each beside the same calls made one by
//! one through the other exports on a copy of the store. Every word of store, answers and list is
//! compared, with those around them. Before some rows one that is spoiled has to be refused.

mod drawn;
mod row;
pub mod script;
mod spoil;
mod tally;

use std::collections::VecDeque;
use std::process::exit;

use crate::c_side;
use crate::call::{Call, Side};
use crate::generator::{ALL, Generator, Wanted, entries};
use crate::model::Model;
use crate::refuse;
use crate::rng::Rng;
use crate::speed::perform;
use crate::words::needed;
use drawn::Drawn;
use row::{DISPATCH, Row};
use script::{Record, joined};
use tally::{Tally, Ways};

/// The words past the needed ones are fewer than this.
const SPARE: u64 = 20;
/// So many rows of a hundred come spoiled first.
const SPOILED: u64 = 25;

/// The rows so far, and room for the present one: as it is lent, made by `broker_calls`, made singly.
struct Rows {
    rng: Rng,
    tally: Tally,
    given: Row,
    made: Row,
    singly: Row,
}

/// How many calls a row has.
fn length(rng: &mut Rng) -> usize {
    match rng.below(100) {
        0..3 => 0,
        3..13 => 1,
        13..60 => 2 + rng.below(9) as usize,
        60..99 => 11 + rng.below(50) as usize,
        _ => 256,
    }
}

/// The words of a row's list: for no record up to plenty, mostly some more than whole records.
fn room(rng: &mut Rng) -> usize {
    let records = match rng.below(100) {
        0..10 => 0,
        10..50 => 1 + rng.below(8),
        50..80 => 9 + rng.below(60),
        _ => 4096,
    };
    DISPATCH * records as usize + rng.below(DISPATCH as u64) as usize
}

impl Rows {
    /// One row, made both ways on what is given.
    fn compare(&mut self, ways: Ways) -> Result<(), String> {
        self.made.copy(&self.given);
        self.singly.copy(&self.given);
        let answer = self.made.make();
        let made = self.singly.make_singly();
        let sure = ways.store.is_some_and(|way| way + 1 < spoil::STORES.len());
        let different = if sure && !made.reasons[0] {
            Some("the single exports take words that spell no state".to_owned())
        } else if answer != made.answer {
            Some(format!("the row's answer is {}, expected {}", told(answer), told(made.answer)))
        } else {
            self.made.difference(&self.singly)
        };
        if let Some(what) = different {
            let number = self.tally.rows + 1;
            return Err(format!("row {number}: {what}\n{}", self.given.text()));
        }
        self.tally.note(ways, &made);
        Ok(())
    }

    /// The row spoiled: store, script and answers, one of them or several. The store stays as it is.
    fn compare_spoiled(&mut self, records: &[Record], needed: usize) -> Result<(), String> {
        let kept = self.given.store.all().to_vec();
        let mut ways = Ways::default();
        let reasons = 1 + self.rng.below(7);
        if reasons & 4 != 0 {
            let way = self.rng.below(spoil::STORES.len() as u64) as usize;
            let mut words = kept.clone();
            spoil::store(&mut self.rng, way, &mut words, needed);
            self.given.store.set(&words);
            ways.store = Some(way);
        }
        if reasons & 2 != 0 {
            let way = self.rng.below(spoil::SCRIPTS.len() as u64) as usize;
            self.given.script.set(&spoil::script(&mut self.rng, way, records));
            ways.script = Some(way);
        }
        if reasons & 1 != 0 {
            let few = self.rng.below(records.len().max(1) as u64) as usize;
            self.given.answers.fill(if self.rng.percent(30) { 0 } else { few });
        }
        self.compare(ways)?;
        self.given.store.set(&kept);
        Ok(())
    }

    /// A row of the drawn calls, spoiled first by chance. The store goes on as the row leaves it.
    fn row(&mut self, drawn: &mut Drawn, needed: usize) -> Result<(), String> {
        let (calls, words) = (length(&mut self.rng), room(&mut self.rng));
        let records = drawn.row(calls, words);
        let more = if self.rng.percent(60) { 0 } else { self.rng.below(9) as usize };
        let lend = |given: &mut Row| {
            given.script.set(&joined(&records));
            given.answers.fill(calls + more);
            given.list.fill(words);
        };
        lend(&mut self.given);
        self.given.nulls = self.rng.percent(50);
        if self.rng.percent(SPOILED) {
            self.compare_spoiled(&records, needed)?;
            lend(&mut self.given);
        }
        self.compare(Ways::default())?;
        std::mem::swap(&mut self.given.store, &mut self.made.store);
        Ok(())
    }

    /// A store opened anew, and some rows on it, few where it is large.
    fn store(&mut self, most: usize) -> Result<(), String> {
        let entries = entries(&mut self.rng);
        let (leak, noop) = (*self.rng.pick(&[0, 0, 1]), *self.rng.pick(&[0, 0, 1, u64::MAX]));
        let (open, needed) = (Call::Open { entries, leak, noop }, needed(entries));
        self.given.store.fill(needed + self.rng.below(SPARE) as usize);
        let answer = perform(self.given.store.all_mut(), &open, &mut []);
        assert_eq!(answer, 0, "the store is opened");
        let mut model = Model::new();
        model.call(&open);
        let mut calls = Rng::new(self.rng.next());
        let wanted = Wanted { inside: false, ..Wanted::calls(0, ALL) };
        let generator = Generator::lasting(&mut calls, &wanted, model);
        let rng = Rng::new(self.rng.next());
        let mut drawn = Drawn { generator, rng, waiting: VecDeque::new() };
        let rows = 1 + self.rng.below(if entries < 1000 { 60 } else { 8 });
        for _ in 0..rows {
            if self.tally.rows < most {
                self.row(&mut drawn, needed)?;
            }
        }
        Ok(())
    }
}

/// An answer's value and number.
fn told(answer: u64) -> String {
    format!("{answer} (value {}, number {})", (answer as i64) >> 8, answer % 256)
}

/// The seed and the rows that the command was asked for.
fn options(args: &[String], usage: &str) -> (u64, usize) {
    let (mut seed, mut rows) = (1, 100_000);
    for pair in args.chunks(2) {
        let [name, value] = pair else { refuse(usage) };
        match name.as_str() {
            "--seed" => seed = value.parse().unwrap_or_else(|_| refuse(usage)),
            "--rows" => rows = value.parse().unwrap_or_else(|_| refuse(usage)),
            _ => refuse(usage),
        }
    }
    (seed, rows)
}

/// So many rows, or the first difference.
fn compare(seed: u64, rows: usize) -> Result<Tally, String> {
    let (given, made, singly) = (Row::default(), Row::default(), Row::default());
    let mut all = Rows { rng: Rng::new(seed), tally: Tally::default(), given, made, singly };
    while all.tally.rows < rows {
        all.store(rows)?;
    }
    Ok(all.tally)
}

pub fn command(args: &[String], usage: &str) {
    let (seed, rows) = options(args, usage);
    if c_side::calls().is_none() || !c_side::missing().is_empty() {
        refuse(
            "LIBBROKER named no archive with broker_calls and the nine exports when this was built",
        );
    }
    let tally = compare(seed, rows).unwrap_or_else(|difference| {
        println!("seed {seed}, broker_calls and the single exports differ: {difference}");
        exit(1)
    });
    println!(
        "seed {seed}, {} rows: broker_calls and the single exports agree\n{}",
        tally.rows,
        tally.text()
    );
    if !tally.missing().is_empty() {
        println!("  never reached: {}", tally.missing().join(", "));
        exit(1)
    }
}
