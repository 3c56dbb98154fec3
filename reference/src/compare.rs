//! The same calls to broker.rs and to another side, compared after every call: answer,
//! records per consumer and, where the other side can show it, the whole state.
//!
//! The model walks along. It watches that the calls stay inside the comparison domain,
//! and it knows what broker.rs does not tell: the order of records across consumers, the
//! refusals outside the domain, and the words of a store. A store with the words of the
//! model's state has that state, so broker.rs's is then compared with the model's.

use crate::broker::driver::Reference;
use crate::call::{Call, Outcome, Record, Side};
use crate::coverage::Coverage;
use crate::generator::{Allowed, Wanted, sequence};
use crate::model::Model;
use crate::play::record_text;
use crate::rng::Rng;
use crate::script::format_call;
use crate::shrink::shrink;
use crate::words::encode;

/// Makes a fresh other side.
pub type Make<'a> = &'a dyn Fn() -> Box<dyn Side>;

/// Whose answers are expected.
#[derive(Clone, Copy, PartialEq, Eq)]
pub enum Against {
    /// broker.rs's, inside the comparison domain.
    Rust,
    /// The model's, refusals and all.
    Rules,
}

pub struct Comparison<'a> {
    pub make: Make<'a>,
    pub against: Against,
    pub with_state: bool,
    /// Whether the records have to stand in document 01's order across consumers too.
    pub in_order: bool,
}

pub enum Verdict {
    Same,
    /// The place of a call that is outside the comparison domain.
    Outside(usize),
    Differs(Difference),
}

pub struct Difference {
    /// The place of the call, from 0.
    pub at: usize,
    pub what: String,
}

/// A difference with the shortest script found for it.
pub struct Found {
    pub script: Vec<Call>,
    pub what: String,
}

/// The result of a random comparison: the calls made, and the first difference if any.
pub struct Searched {
    pub calls: usize,
    pub difference: Option<(Vec<Call>, Difference)>,
}

fn records_differ(expected: &[Record], found: &[Record]) -> Option<String> {
    let absent = || "(no such record)".to_owned();
    let text = |records: &[Record], i: usize| records.get(i).map_or_else(absent, record_text);
    (0..expected.len().max(found.len()))
        .find(|i| expected.get(*i) != found.get(*i))
        .map(|i| format!("expected: + {}\n    other: + {}", text(expected, i), text(found, i)))
}

fn outcomes_differ(expected: &Outcome, found: &Outcome) -> Option<String> {
    if expected.answer() != found.answer() {
        let text = |o: &Outcome| format!("value {} number {}", o.value, o.number);
        return Some(format!("expected: {}\n    other: {}", text(expected), text(found)));
    }
    records_differ(&expected.grouped(), &found.grouped())
}

fn states_differ(expected: &dyn Side, found: &dyn Side) -> Option<String> {
    let (expected, found) = expected.state().zip(found.state())?;
    expected.difference(&found)
}

/// `expected` is room for the words of the model's state.
fn words_differ(model: &Model, expected: &mut Vec<u64>, found: &[u64]) -> Option<String> {
    encode(model, expected);
    if expected == found {
        return None;
    }
    let absent = || "(no such word)".to_owned();
    let text = |words: &[u64], i: usize| words.get(i).map_or_else(absent, u64::to_string);
    (0..expected.len().max(found.len())).find(|i| expected.get(*i) != found.get(*i)).map(|i| {
        format!("word {i} of the store: {}\n    other: {}", text(expected, i), text(found, i))
    })
}

impl Found {
    pub fn text(&self) -> String {
        let lines: Vec<String> = self.script.iter().map(format_call).collect();
        let what = self.what.replace('\n', "\n#");
        format!("{}\n# the last call differs\n#   {what}", lines.join("\n"))
    }
}

impl Comparison<'_> {
    /// Runs the calls on all sides. The first has to be an open.
    pub fn run(&self, calls: &[Call], coverage: &mut Coverage) -> Verdict {
        if !matches!(calls.first(), Some(Call::Open { .. })) {
            return Verdict::Outside(0);
        }
        let mut model = Model::new();
        let mut reference = Reference::new();
        let mut other = (self.make)();
        let mut room = Vec::new();
        for (at, call) in calls.iter().enumerate() {
            if self.against == Against::Rust && model.leaves_domain(call) {
                return Verdict::Outside(at);
            }
            coverage.before(call, &model);
            let by_rules = model.call(call);
            let expected = match self.against {
                Against::Rust => reference.call(call),
                Against::Rules => by_rules.clone(),
            };
            let found = other.call(call);
            coverage.note(call, &expected, &model);
            let mut what = outcomes_differ(&expected, &found);
            if what.is_none() && self.in_order {
                what = records_differ(&by_rules.records, &found.records);
            }
            if what.is_none() {
                what = other.words().and_then(|words| words_differ(&model, &mut room, words));
            }
            if what.is_none() && self.with_state {
                let told: &dyn Side = match self.against {
                    Against::Rust => &reference,
                    Against::Rules => &model,
                };
                let shown: &dyn Side =
                    if other.words().is_some() { &model } else { other.as_ref() };
                what = states_differ(told, shown);
            }
            if let Some(what) = what {
                return Verdict::Differs(Difference { at, what });
            }
        }
        Verdict::Same
    }

    fn difference(&self, calls: &[Call]) -> Option<Difference> {
        match self.run(calls, &mut Coverage::default()) {
            Verdict::Differs(difference) => Some(difference),
            _ => None,
        }
    }

    /// Cuts the sequence up to its first difference down to a shortest one.
    pub fn shortest(&self, calls: &[Call], at: usize) -> Found {
        let fails = |calls: &[Call]| self.difference(calls).is_some();
        let mut script = shrink(&calls[..=at], &fails);
        match self.difference(&script) {
            Some(difference) => {
                script.truncate(difference.at + 1);
                Found { script, what: difference.what }
            }
            None => {
                let what = "this time it did not: a side is not deterministic".to_owned();
                Found { script, what }
            }
        }
    }

    /// Random sequences until `calls` calls were compared or two sides differ.
    pub fn search(
        &self,
        seed: u64,
        calls: usize,
        allowed: &Allowed,
        coverage: &mut Coverage,
    ) -> Searched {
        let mut rng = Rng::new(seed);
        let mut made = 0;
        while made < calls {
            let length = *rng.pick(&[20, 60, 120, 250, 500]);
            let inside = self.against == Against::Rust;
            let wanted = Wanted { inside, ..Wanted::calls(length, *allowed) };
            let sequence = sequence(&mut rng, &wanted);
            match self.run(&sequence, coverage) {
                Verdict::Same => made += sequence.len(),
                Verdict::Outside(at) => panic!("the generator left the domain: {:?}", sequence[at]),
                Verdict::Differs(d) => {
                    return Searched { calls: made + d.at + 1, difference: Some((sequence, d)) };
                }
            }
        }
        Searched { calls: made, difference: None }
    }
}
