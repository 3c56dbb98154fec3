//! A trace played on the model: the text that the player has to print for the same bytes.

use std::ops::Range;

use super::bytes::{Front, HEADER, Step, after_header, front, stated};
use crate::call::{Call, Outcome, Side};
use crate::cases;
use crate::model::Model;

/// The player's store, switches off.
pub const OPEN: Call = Call::Open { entries: 32, leak: 0, noop: 0 };
/// The records of its push list.
pub const ROOM: usize = 32;

/// The player's store as it is before the first record.
pub fn opened() -> Model {
    let mut model = Model::new();
    model.call(&OPEN);
    model
}

/// Makes the call of a record. A list that is no row of groups has the place of one that is too
/// long: after the consumer that is not live.
pub fn perform(model: &mut Model, step: &Step) -> Outcome {
    match step {
        Step::Call(Call::Push) => cases::push(model, ROOM).0,
        Step::Call(call) => model.call(call),
        Step::NoGroups(consumer) => {
            Outcome::refused(if model.live(*consumer).is_some() { 10 } else { 4 })
        }
    }
}

/// What was met in some traces.
#[derive(Debug, Clone, Default)]
pub struct Tally {
    pub traces: usize,
    pub records: usize,
    /// Traces that end with a line `bad`.
    pub bad: usize,
    /// Records by kind.
    pub kinds: [usize; 9],
    /// Records by refusal, those done under 0.
    pub refusals: [usize; 16],
    pub dispatches: usize,
    /// Dispatches after which the consumer's permits are below 0.
    pub below_zero: usize,
    /// The most dispatches of one push.
    pub largest: usize,
}

impl Tally {
    fn note(&mut self, kind: u8, outcome: &Outcome) {
        self.records += 1;
        self.kinds[usize::from(kind)] += 1;
        self.refusals[usize::from(outcome.number)] += 1;
        self.dispatches += outcome.records.len();
        self.below_zero += outcome.records.iter().filter(|r| r.permits < 0).count();
        self.largest = self.largest.max(outcome.records.len());
    }

    pub fn add(&mut self, other: &Tally) {
        self.traces += other.traces;
        self.records += other.records;
        self.bad += other.bad;
        self.kinds.iter_mut().zip(other.kinds).for_each(|(n, more)| *n += more);
        self.refusals.iter_mut().zip(other.refusals).for_each(|(n, more)| *n += more);
        self.dispatches += other.dispatches;
        self.below_zero += other.below_zero;
        self.largest = self.largest.max(other.largest);
    }

    pub fn text(&self) -> String {
        let refused = (1..16).filter(|n| self.refusals[*n] > 0);
        let refused: Vec<String> = refused.map(|n| format!("{n} ({})", self.refusals[n])).collect();
        let refused = if refused.is_empty() { "none".to_owned() } else { refused.join(", ") };
        format!(
            "traces {}, records {}, refused: {refused}, bad {}, dispatches {} (below 0: {}, most at \
             once {})",
            self.traces, self.records, self.bad, self.dispatches, self.below_zero, self.largest
        )
    }
}

/// What a trace gives.
pub struct Played {
    pub text: String,
    pub tally: Tally,
    /// For each record, the header first: its bytes, and the lines up to its last one.
    shown: Vec<(Range<usize>, usize)>,
}

impl Played {
    fn line(&mut self, line: &str) {
        self.text += line;
        self.text.push('\n');
        if let Some((_, lines)) = self.shown.last_mut() {
            *lines += 1;
        }
    }

    /// A record of these bytes; its lines come next.
    fn begin(&mut self, bytes: Range<usize>) {
        let lines = self.shown.last().map_or(0, |(_, lines)| *lines);
        self.shown.push((bytes, lines));
    }

    fn outcome(&mut self, kind: u8, outcome: &Outcome) {
        self.tally.note(kind, outcome);
        let (number, made) = (self.tally.records, outcome.records.len());
        self.line(&format!("{number} {kind} {} {made}", outcome.number));
        for r in &outcome.records {
            self.line(&format!("+ {} {} {} {}", r.consumer, r.ledger, r.entry, r.permits));
        }
    }

    fn bad(mut self, number: usize) -> Self {
        self.tally.bad = 1;
        self.line(&format!("bad {number}"));
        self
    }

    /// The number of the record that a line from 0 belongs to, 0 for the header, with its bytes; the
    /// last one for a line too many.
    pub fn record_of(&self, line: usize) -> (usize, Range<usize>) {
        let at = self.shown.partition_point(|(_, lines)| *lines <= line);
        let at = at.min(self.shown.len() - 1);
        (at, self.shown[at].0.clone())
    }
}

pub fn play(bytes: &[u8]) -> Played {
    let tally = Tally { traces: 1, ..Tally::default() };
    let mut played = Played { text: String::new(), tally, shown: Vec::new() };
    played.begin(0..bytes.len().min(HEADER.len()));
    let Some(mut rest) = after_header(bytes) else { return played.bad(0) };
    let mut model = opened();
    loop {
        let start = bytes.len() - rest.len();
        match front(rest) {
            Front::End => return played,
            Front::Bad => {
                let number = played.tally.records + 1;
                played.begin(start..start + stated(rest));
                return played.bad(number);
            }
            Front::Record(kind, step, after) => {
                played.begin(start..bytes.len() - after.len());
                played.outcome(kind, &perform(&mut model, &step));
                rest = after;
            }
        }
    }
}

#[cfg(test)]
mod tests {
    use super::*;
    use crate::call::Kind;
    use crate::trace::bytes::{record, trace};
    use crate::trace::{EXAMPLE_TEXT, example};

    const TOP: &str = "+ 18446744073709551615 18446744073709551615 18446744073709551615 -99\n";

    #[test]
    fn the_example_of_document_02() {
        assert_eq!(play(&trace(&example())).text, EXAMPLE_TEXT);
    }

    /// K6, and the largest numbers.
    #[test]
    fn permits_below_0_and_numbers_of_64_bits() {
        let top = u64::MAX;
        for (consumer, id, last) in [(7, (1, 0), "+ 7 1 0 -99\n"), (top, (top, top), TOP)] {
            let (ledger, entry) = id;
            let calls = [
                Call::Append { topic: 1, ledger, entry, handle: 5, batch: 100 },
                Call::Subscribe { consumer, kind: Kind::Shared, topic: 1, subscription: 1 },
                Call::Flow { consumer, grant: 1 },
                Call::Push,
            ];
            let text = play(&trace(&calls)).text;
            assert!(text.ends_with(&format!("4 8 0 1\n{last}")), "{text}");
        }
    }

    #[test]
    fn a_header_alone_prints_nothing() {
        assert_eq!(play(&HEADER).text, "");
        assert_eq!(play(b"").text, "bad 0\n");
        assert_eq!(play(b"HBT\x00\x02\x08\x00\x00").text, "bad 0\n");
    }

    #[test]
    fn a_bad_record_has_its_number_and_ends_the_text() {
        let mut bytes = trace(&[Call::Push, Call::Close { consumer: 7 }]);
        bytes.extend(record(9, &[]));
        bytes.extend(record(8, &[]));
        let played = play(&bytes);
        assert_eq!(played.text, "1 8 0 0\n2 7 0 0\nbad 3\n");
        assert_eq!(played.record_of(2), (3, 19..22));
    }

    #[test]
    fn a_list_that_is_no_row_of_groups_is_refused_after_4() {
        let mut bytes = trace(&[]);
        bytes.extend(record(4, &[7, 1]));
        bytes.extend(record(2, &[7, 0, 1, 1]));
        bytes.extend(record(4, &[7, 1]));
        bytes.extend(record(6, &[7, 1, 0, u64::MAX]));
        assert_eq!(play(&bytes).text, "1 4 4 0\n2 2 0 0\n3 4 10 0\n4 6 10 0\n");
    }

    #[test]
    fn a_line_belongs_to_its_record() {
        let bytes = trace(&example());
        let played = play(&bytes);
        assert_eq!(played.record_of(0), (1, 5..48));
        assert_eq!(played.record_of(3).0, 4);
        assert_eq!(played.record_of(4).0, 4);
        assert_eq!(played.record_of(9).0, 4);
    }
}
