//! What was met in the rows, and what has to be met.

use super::row::Made;
use super::spoil::{SCRIPTS, STORES};
use crate::call::{Call, OPERATIONS};

/// How a row was spoiled: the ways of its store and of its script, if they were.
#[derive(Clone, Copy, Default)]
pub struct Ways {
    pub store: Option<usize>,
    pub script: Option<usize>,
}

#[derive(Default)]
pub struct Tally {
    pub rows: usize,
    /// Rows by refusal, by the three reasons together.
    refused: [usize; 8],
    stores: [usize; STORES.len()],
    scripts: [usize; SCRIPTS.len()],
    kinds: [usize; OPERATIONS.len()],
    /// Calls of rows by refusal, those done under 0.
    refusals: [usize; 16],
    records: usize,
    longest: usize,
    /// Rows with more than one push that made records, and pushes that did after a 15 in their row.
    several: usize,
    after_short: usize,
}

/// The reasons of a refused row as one number: no state 4, no call 2, few answers 1.
fn together([no_state, no_call, few]: [bool; 3]) -> usize {
    4 * usize::from(no_state) + 2 * usize::from(no_call) + usize::from(few)
}

const REASONS: [&str; 8] =
    ["none", "64", "18", "18 before 64", "1", "1 before 64", "1 before 18", "1 before 18 and 64"];

fn counted<'a>(counts: impl Iterator<Item = (&'a str, usize)>) -> String {
    counts.map(|(name, n)| format!("{name} ({n})")).collect::<Vec<_>>().join(", ")
}

impl Tally {
    pub fn note(&mut self, ways: Ways, made: &Made) {
        self.rows += 1;
        self.refused[together(made.reasons)] += 1;
        if let (Some(way), true) = (ways.store, made.reasons[0]) {
            self.stores[way] += 1;
        }
        if let (Some(way), true) = (ways.script, made.reasons[1]) {
            self.scripts[way] += 1;
        }
        self.note_calls(&made.calls);
    }

    fn note_calls(&mut self, calls: &[(Call, u64)]) {
        let (mut short, mut pushed) = (false, 0);
        for (call, answer) in calls {
            let (number, value) = ((answer % 256) as usize, (answer / 256) as usize);
            self.kinds[call.operation()] += 1;
            self.refusals[number.min(15)] += 1;
            short |= number == 15;
            if *call == Call::Push && number == 0 && value > 0 {
                self.records += value;
                self.after_short += usize::from(short);
                pushed += 1;
            }
        }
        self.several += usize::from(pushed > 1);
        self.longest = self.longest.max(calls.len());
    }

    fn refused_by(&self, reason: usize) -> (&'static str, usize) {
        let sums = [0, self.refused[1], self.refused[2] + self.refused[3]];
        let first = self.refused[4..].iter().sum();
        match reason {
            4 => ("1", first),
            _ => (REASONS[reason], sums[reason]),
        }
    }

    pub fn text(&self) -> String {
        let calls: usize = self.kinds.iter().sum();
        let kinds = OPERATIONS.iter().copied().zip(self.kinds).skip(1);
        let refusals: Vec<String> = (4..16).map(|n| n.to_string()).collect();
        let refusals = refusals.iter().map(String::as_str).zip(self.refusals[4..].iter().copied());
        let refused = [4, 2, 1].map(|reason| self.refused_by(reason));
        let orders = [6, 5, 3, 7].map(|reason| (REASONS[reason], self.refused[reason]));
        format!(
            "  calls: {calls} (at most {} in a row): {}\n  pushes made {} records, several pushes of a \
             row in {} rows, {} after a 15 in their row\n  calls refused in rows: {}\n  rows refused: \
             {}; {}\n  stores: {}\n  scripts: {}",
            self.longest,
            kinds.map(|(name, n)| format!("{name} {n}")).collect::<Vec<_>>().join(", "),
            self.records,
            self.several,
            self.after_short,
            counted(refusals),
            counted(refused.into_iter()),
            counted(orders.into_iter()),
            counted(STORES.iter().copied().zip(self.stores)),
            counted(SCRIPTS.iter().copied().zip(self.scripts)),
        )
    }

    /// What has to be met and never was.
    pub fn missing(&self) -> Vec<String> {
        let named = |name: &str, n: &usize| (*n == 0).then(|| name.to_owned());
        let numbered = (4..16).filter_map(|n| named(&format!("refusal {n}"), &self.refusals[n]));
        let kinds = OPERATIONS.iter().zip(&self.kinds).skip(1).filter_map(|(k, n)| named(k, n));
        let rows = REASONS.iter().zip(&self.refused);
        let rows = rows.filter_map(|(reason, n)| named(&format!("a row refused by {reason}"), n));
        let stores = STORES.iter().zip(&self.stores).filter_map(|(way, n)| named(way, n));
        let scripts = SCRIPTS.iter().zip(&self.scripts).filter_map(|(way, n)| named(way, n));
        let pushes =
            [("several pushes of a row", self.several), ("a push after 15", self.after_short)];
        let pushes = pushes.iter().filter_map(|(what, n)| named(what, n));
        numbered.chain(kinds).chain(rows).chain(stores).chain(scripts).chain(pushes).collect()
    }
}
