//! Random traces. A trace never opens its store again, so what can be spent only once (entries,
//! dispatchers, completions) is spent evenly over its length; the rest goes round: entries are handed
//! out, handed back and handed out again.

use super::bytes::{self, HEADER, Step, record, written};
use super::on_model::{opened, perform};
use super::program::Runs;
use crate::call::{Call, Group, Kind, Outcome, Target, list};
use crate::generator::{ALL, Generator, Wanted};
use crate::model::{Consumer, Dispatcher, Message, Model};
use crate::rng::Rng;

/// A trace has other consumers, weights and batches after about so many records.
const TURN: u64 = 250;
/// Of 100,000 draws so many are a list that is not of the form, a holder that joins anew, grants to
/// the limit of the permits, entries handed back to the limit, and a crowd.
const OTHERS: [u64; 5] = [1500, 2500, 25, 75, 75];

/// What a trace's records are drawn from.
struct Drawn<'a> {
    generator: Generator<'a>,
    rng: Rng,
    length: usize,
    records: Vec<Vec<u8>>,
}

/// A message as a list names it.
fn group(message: &Message) -> Group {
    Group { ledger: message.ledger, entry: message.entry, words: Vec::new() }
}

/// What a state has used up: entries, dispatchers, completions.
fn spent(model: &Model) -> [usize; 3] {
    let complete = |d: &Dispatcher| d.marks.iter().filter(|m| m.fully_acked).count();
    [
        model.topics.iter().map(|t| t.messages.len()).sum(),
        model.dispatchers.len(),
        model.dispatchers.iter().map(complete).sum(),
    ]
}

impl Drawn<'_> {
    /// What may be used up after as many records as there are now: of the completions that there could
    /// be, half at the end.
    fn allowed(&self) -> [usize; 3] {
        let part = |all: usize| all * self.records.len() / self.length;
        let marks: usize = self.generator.model.dispatchers.iter().map(|d| d.marks.len()).sum();
        [24 + part(240), 1 + part(9), 4 + part(marks / 2)]
    }

    /// Whether the call is worth its place: it spends nothing too early, and one idle push in four.
    fn wanted(&mut self, call: &Call) -> bool {
        let mut after = self.generator.model.clone();
        let outcome = perform(&mut after, &Step::Call(call.clone()));
        if *call == Call::Push && outcome.number == 0 && outcome.records.is_empty() {
            return self.rng.percent(25);
        }
        let (before, after) = (spent(&self.generator.model), spent(&after));
        let fits = |i: usize| after[i] == before[i] || after[i] <= self.allowed()[i];
        (0..3).all(fits)
    }

    fn add(&mut self, call: &Call) -> Outcome {
        self.records.push(written(call));
        perform(&mut self.generator.model, &Step::Call(call.clone()))
    }

    /// After 15 somebody has to go, or no push is done again.
    fn relieve(&mut self) {
        let consumers = &self.generator.model.consumers;
        let most = consumers.iter().filter(|c| c.permits > 0).max_by_key(|c| c.permits);
        let Some((consumer, kind)) = most.map(|c| (c.id, c.kind)) else { return };
        let target = Target::Id(u64::MAX, u64::MAX);
        match kind {
            Kind::Plain if self.rng.percent(50) => self.add(&Call::Seek { consumer, target }),
            _ => self.add(&Call::Close { consumer }),
        };
    }

    /// Grants until 9, then the consumer goes.
    fn grants(&mut self) {
        let Some(consumer) = self.generator.model.consumers.first().map(|c| c.id) else { return };
        let grant = Call::Flow { consumer, grant: u32::MAX };
        while self.add(&grant).number == 0 {}
        self.add(&Call::Close { consumer });
    }

    /// A plain consumer hands back its topic's last entry until 11.
    fn nacks(&mut self) {
        let model = &self.generator.model;
        let plain = |c: &&Consumer| c.kind == Kind::Plain && !model.messages(c.topic).is_empty();
        let Some(c) = model.consumers.iter().find(plain) else { return };
        let last = model.messages(c.topic).last().map(group);
        let back = Call::Redeliver { consumer: c.id, groups: last.into_iter().collect() };
        while self.add(&back).number == 0 {}
    }

    /// An ack or redeliver whose list is not of the form.
    fn odd_list(&mut self) {
        let consumers = &self.generator.model.consumers;
        let consumer = if consumers.is_empty() { 5 } else { self.rng.pick(consumers).id };
        let words = odd_words(&mut self.rng);
        let kind = *self.rng.pick(&[4, 6]);
        self.records.push(record(kind, &[vec![consumer], words].concat()));
    }

    /// Consumers join a ring until 12; three turn plain and leave, and as their ids stay in the ring
    /// nobody new can join (14); those three come back, and most leave.
    fn crowd(&mut self) {
        let dispatchers = &self.generator.model.dispatchers;
        if dispatchers.is_empty() {
            return;
        }
        let d = self.rng.pick(dispatchers);
        let (topic, subscription) = (d.topic, d.subscription);
        let join = |consumer: u64, kind| Call::Subscribe { consumer, kind, topic, subscription };
        let close = |consumer: u64| Call::Close { consumer };
        let live: Vec<u64> = self.generator.model.consumers.iter().map(|c| c.id).collect();
        let mut calls: Vec<Call> = live.into_iter().map(close).collect();
        calls.extend((0..33).map(|id| join(id, Kind::Shared)));
        calls.extend((0..3).flat_map(|id| [join(id, Kind::Plain), close(id)]));
        calls.extend((33..36).map(|id| join(id, Kind::Shared)));
        calls.extend((0..3).map(|id| join(id, Kind::Shared)));
        calls.extend((0..28).map(close));
        calls.iter().for_each(|call| {
            self.add(call);
        });
    }

    /// One who holds entries of a ring, live there or not, joins it anew, hands them back and is handed
    /// some for a few permits: entries do not stay for good with ids that left, and permits below 0
    /// are met.
    fn holder(&mut self) {
        let dispatchers = &self.generator.model.dispatchers;
        if dispatchers.is_empty() {
            return;
        }
        let d = self.rng.pick(dispatchers);
        let (topic, subscription, total) = (d.topic, d.subscription, d.total_available_permits);
        let consumer = match d.in_flight.is_empty() {
            true => self.rng.below(40),
            false => self.rng.pick(&d.in_flight).0,
        };
        self.add(&Call::Subscribe { consumer, kind: Kind::Shared, topic, subscription });
        let groups = self.held(consumer);
        self.add(&Call::Redeliver { consumer, groups });
        let least = (1 - total).clamp(1, 1000) as u64;
        let grant = (least + self.rng.below(3)) as u32;
        self.add(&Call::Flow { consumer, grant });
        self.add(&Call::Push);
    }

    /// What a consumer holds, as far as a list can name it.
    fn held(&self, consumer: u64) -> Vec<Group> {
        let model = &self.generator.model;
        let held = model.dispatchers.iter().flat_map(|d| {
            let its = d.in_flight.iter().filter(|(holder, _)| *holder == consumer);
            its.map(|(_, position)| &model.messages(d.topic)[*position])
        });
        held.map(group).take(64).collect()
    }

    /// One draw: some records, or none.
    fn next(&mut self) {
        let rest = 100_000 - OTHERS.iter().sum::<u64>();
        match self.rng.weighted(&[&OTHERS[..], &[rest]].concat()) {
            0 => self.odd_list(),
            1 => self.holder(),
            2 => self.grants(),
            3 => self.nacks(),
            4 => self.crowd(),
            _ => self.drawn_call(),
        }
    }

    fn drawn_call(&mut self) {
        if self.rng.below(TURN) == 0 {
            self.generator.turn();
        }
        let call = self.generator.candidate();
        if !self.wanted(&call) {
            return;
        }
        if self.add(&call).number == 15 && self.rng.percent(80) {
            self.relieve();
        }
    }
}

/// Words that are no list of groups, or of too many or too long ones.
pub fn odd_words(rng: &mut Rng) -> Vec<u64> {
    let group = |entry, n: usize| Group { ledger: 1, entry, words: vec![2; n] };
    match rng.below(5) {
        0 => (0..=rng.below(40)).map(|_| rng.next()).collect(),
        1 => list(&(0..65 + rng.below(300)).map(|i| group(i, 0)).collect::<Vec<_>>()),
        2 => list(&[group(0, 17 + rng.below(1000) as usize)]),
        3 => {
            let mut words = list(&(0..1 + rng.below(64)).map(|i| group(i, 3)).collect::<Vec<_>>());
            words.truncate(words.len() - 1 - rng.below(5) as usize);
            words
        }
        _ => vec![0; 1 + 3 * rng.below(405) as usize],
    }
}

/// The records of a trace.
fn records(rng: &mut Rng, length: usize) -> Vec<Vec<u8>> {
    let mut calls = Rng::new(rng.next());
    let wanted = Wanted { inside: false, ..Wanted::calls(length, ALL) };
    let generator = Generator::lasting(&mut calls, &wanted, opened());
    let mut drawn = Drawn { generator, rng: Rng::new(rng.next()), length, records: Vec::new() };
    while drawn.records.len() < length {
        drawn.next();
    }
    drawn.records.truncate(length);
    drawn.records
}

fn joined(records: &[Vec<u8>]) -> Vec<u8> {
    [&HEADER[..], &records.concat()].concat()
}

pub fn trace(rng: &mut Rng, length: usize) -> Vec<u8> {
    joined(&records(rng, length))
}

/// A record that fits no kind.
fn unfit(rng: &mut Rng) -> Vec<u8> {
    let many = |rng: &mut Rng, n: u64| (0..n).map(|_| rng.next()).collect::<Vec<u64>>();
    match rng.below(5) {
        0 => {
            let (kind, n) = (9 + rng.below(247) as u8, rng.below(8));
            record(kind, &many(rng, n))
        }
        1 => {
            let (kind, n) = (1 + rng.below(3) as u8, 6 + rng.below(1400));
            record(kind, &many(rng, n))
        }
        2 => record(1, &[256 << rng.below(56), 1, 0, 0, 0]),
        3 => record(3, &[7, 1 << (32 + rng.below(32))]),
        _ => bytes::headed(1 + rng.below(8) as u8, 1218 + rng.below(60_000) as u16),
    }
}

/// A short trace with one thing wrong, most of the time.
fn damaged(rng: &mut Rng) -> Vec<u8> {
    let length = 1 + rng.below(60) as usize;
    let mut records = records(rng, length);
    if rng.percent(30) {
        let at = rng.below(1 + records.len() as u64) as usize;
        let unfit = unfit(rng);
        records.insert(at, unfit);
        return joined(&records);
    }
    let mut bytes = joined(&records);
    let at = rng.below(bytes.len() as u64) as usize;
    match rng.below(8) {
        0 => bytes.truncate(at),
        1 => {
            bytes.remove(at);
        }
        2 => bytes.insert(at, rng.next() as u8),
        3..6 => bytes[at] ^= 1 << rng.below(8),
        _ => bytes[at] = rng.next() as u8,
    }
    bytes
}

/// One trace of so many records, as many again in short ones, and damaged ones.
pub fn compare(runs: &mut Runs, seed: u64, length: usize) -> Result<(), String> {
    let mut rng = Rng::new(seed);
    runs.same("a random trace", &trace(&mut rng, length))?;
    let mut made = 0;
    while made < length {
        let short = *rng.pick(&[30, 100, 300, 1000]);
        runs.same("a short random trace", &trace(&mut rng, short.min(length)))?;
        made += short;
    }
    for _ in 0..length / 25 {
        runs.same("a damaged trace", &damaged(&mut rng))?;
    }
    Ok(())
}

#[cfg(test)]
mod tests {
    use super::*;
    use crate::trace::on_model::play;

    #[test]
    fn a_random_trace_is_good_and_reaches_every_answer() {
        let tally = play(&trace(&mut Rng::new(1), 20_000)).tally;
        assert_eq!((tally.records, tally.bad), (20_000, 0));
        assert!(tally.kinds[1..].iter().all(|n| *n > 100), "{:?}", tally.kinds);
        assert!(tally.refusals[4..].iter().all(|n| *n > 0), "{:?}", tally.refusals);
        assert!(tally.below_zero > 50 && tally.largest > 20 && tally.dispatches > 2000);
    }

    #[test]
    fn most_damaged_traces_are_bad() {
        let mut rng = Rng::new(1);
        let bad: usize = (0..200).map(|_| play(&damaged(&mut rng)).tally.bad).sum();
        assert!((100..200).contains(&bad), "{bad}");
    }
}
