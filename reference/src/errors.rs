//! `reference check-errors`: seeds each deliberate error into the model and demands that
//! the comparison catches it three times: with the whole state in view; by answers and
//! records alone, which is all that the C side shows; and by the fixed list of vectors.
//! One that shows only outside the comparison domain is held to the rules, not to broker.rs,
//! and in place of the vectors to the fixed sequences outside the domain.

use crate::call::Side;
use crate::compare::{Against, Comparison, Verdict};
use crate::coverage::Coverage;
use crate::generator::ALL;
use crate::limits;
use crate::model::Model;
use crate::model::mutation::{Mutation, OUTSIDE};
use crate::vectors;

const SEED: u64 = 8;
/// Calls after which an error counts as missed.
const PATIENCE: usize = 200_000;

/// Gives `check` the comparison of broker.rs, or of the rules, with the model that has the error.
fn with_error<T>(mutation: Mutation, with_state: bool, check: impl Fn(Comparison) -> T) -> T {
    let make = || Box::new(Model::with_error(mutation)) as Box<dyn Side>;
    let against = if OUTSIDE.contains(&mutation) { Against::Rules } else { Against::Rust };
    check(Comparison { make: &make, against, with_state, in_order: false })
}

/// The calls it took and the length of the shortest script, if the error was caught.
fn caught(mutation: Mutation, with_state: bool) -> Option<(usize, usize)> {
    with_error(mutation, with_state, |comparison| {
        let searched = comparison.search(SEED, PATIENCE, &ALL, &mut Coverage::default());
        let (calls, difference) = searched.difference?;
        let found = comparison.shortest(&calls, difference.at);
        Some((searched.calls, found.script.len()))
    })
}

/// The call of the fixed list, from 1, at which the error shows.
fn in_list(mutation: Mutation) -> Option<usize> {
    let outside = || limits::outside().into_iter().map(|(_, calls)| calls).collect();
    let list = if OUTSIDE.contains(&mutation) { outside() } else { vectors::sequences() };
    with_error(mutation, false, |comparison| {
        let mut before = 0;
        for calls in &list {
            let verdict = comparison.run(calls, &mut Coverage::default());
            if let Verdict::Differs(difference) = verdict {
                return Some(before + difference.at + 1);
            }
            before += calls.len();
        }
        None
    })
}

fn text(caught: Option<(usize, usize)>) -> String {
    match caught {
        Some((calls, length)) => format!("after {calls} calls, {length} in the shortest script"),
        None => format!("NOT CAUGHT in {PATIENCE} calls"),
    }
}

/// Prints each error unless brief, then a summary; true if all were caught.
pub fn check(brief: bool) -> bool {
    let mut missed = Vec::new();
    let mut most = 0;
    for (mutation, name) in Mutation::ALL {
        let by_state = caught(*mutation, true);
        let by_answers = caught(*mutation, false);
        let by_list = in_list(*mutation);
        if !brief {
            println!("{name}:\n  by state: {}", text(by_state));
            println!("  by answers and records: {}", text(by_answers));
            match by_list {
                Some(at) => println!("  by the fixed list: call {at}"),
                None => println!("  by the fixed list: NOT CAUGHT"),
            }
        }
        match (by_state, by_answers, by_list) {
            (Some(a), Some(b), Some(_)) => most = most.max(a.0).max(b.0),
            _ => missed.push(*name),
        }
    }
    let tried = Mutation::ALL.len();
    if missed.is_empty() {
        println!(
            "deliberate errors: {tried} tried, each caught by state, by answers and records alone \
             (the slowest after {most} calls), and by the fixed list; {} of them outside broker.rs's \
             domain, by the rules",
            OUTSIDE.len()
        );
    } else {
        println!("deliberate errors: {tried} tried, not caught: {}", missed.join("; "));
    }
    missed.is_empty()
}
