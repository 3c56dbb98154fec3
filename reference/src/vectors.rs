//! The fixed list for the case runner: calls with broker.rs's answers, in decimal numbers
//! and nothing else. vectors/README.md has the format.

use crate::broker::driver::Reference;
use crate::call::{Call, Outcome, Side};
use crate::generator::{ALL, Wanted, sequence};
use crate::limits;
use crate::model::Model;
use crate::rng::Rng;

/// The case runner's store.
const ENTRIES: u64 = 32;
/// The most records that a push of the list gives.
const MOST_DUE: usize = 64;
const SEED: u64 = 32;
const SEQUENCES: usize = 48;
const LENGTH: usize = 90;

fn line(call: &Call, outcome: &Outcome) -> String {
    let args = call.words();
    let mut words = vec![call.operation() as u64, args.len() as u64];
    words.extend(args);
    words.push(outcome.answer());
    if *call == Call::Push {
        words.push(outcome.records.len() as u64);
        words.extend(outcome.grouped().iter().flat_map(|r| r.words()));
    }
    words.iter().map(u64::to_string).collect::<Vec<_>>().join(" ")
}

fn due(calls: &[Call]) -> usize {
    let mut model = Model::new();
    calls.iter().map(|call| model.call(call).records.len()).max().unwrap_or(0)
}

/// The fixed sequences that fit the runner's store, short ones only, then random ones.
pub fn sequences() -> Vec<Vec<Call>> {
    let fits = |calls: &Vec<Call>| {
        matches!(calls[0], Call::Open { entries: ENTRIES, .. }) && due(calls) <= MOST_DUE
    };
    let short = |calls: &Vec<Call>| calls.len() <= 600;
    let limits = limits::all().into_iter().map(|(_, calls)| calls);
    let mut all: Vec<Vec<Call>> = limits.filter(|c| fits(c) && short(c)).collect();
    let mut rng = Rng::new(SEED);
    let wanted =
        Wanted { entries: Some(ENTRIES), most_due: Some(MOST_DUE), ..Wanted::calls(LENGTH, ALL) };
    for _ in 0..SEQUENCES {
        all.push(sequence(&mut rng, &wanted));
    }
    all
}

pub fn text() -> String {
    let mut text = String::new();
    let mut reference = Reference::new();
    for call in sequences().iter().flatten() {
        let outcome = reference.call(call);
        text += &line(call, &outcome);
        text.push('\n');
    }
    text
}
