//! The case runner's input and the output that it has to give (crates/cases/stdin and stdout).
//! The input is a script with headings; `push N` is a push with a list of N records, `row` makes a row
//! of calls, and `balance` asks for the balance check of each dispatcher. The answers are the model's,
//! in document 01's order of records. Over the sequences of the fixed list broker.rs has to agree; bits
//! come from broker.rs itself.

mod rows;

use crate::broker::driver::{Reference, and_fresh, fresh};
use crate::call::{Call, Group, Outcome, Side, Target};
use crate::limits;
use crate::model::Model;
use crate::play::{outcome_text, record_text};
use crate::script::{Line, calls, format_call, parse};
use crate::vectors;

/// The words of the runner's store, and the records of its list.
const WORDS: u64 = 8192;
const ROOM: usize = 64;

/// The heading before the sequences on which broker.rs has to agree.
const FIXED_LIST: &str = "# the fixed list, on which broker.rs gave the same";

/// What the runner prints where a push into records gives what the flat push gives.
const AS_RECORDS: &str = "  as records: the same\n";

/// The scripts of what broker.rs does otherwise: refusals 5 to 14, which it does not have, and seeks
/// past the end.
const OUTSIDE: [(&str, &str); 14] = [
    ("refusal 5", include_str!("../scripts/outside/refusal-5.txt")),
    ("refusal 6", include_str!("../scripts/outside/refusal-6.txt")),
    ("refusal 7", include_str!("../scripts/outside/refusal-7.txt")),
    ("refusal 8", include_str!("../scripts/outside/refusal-8.txt")),
    ("refusal 9", include_str!("../scripts/outside/refusal-9.txt")),
    ("refusal 10, groups", include_str!("../scripts/outside/refusal-10-groups.txt")),
    ("refusal 10, words", include_str!("../scripts/outside/refusal-10-words.txt")),
    ("refusal 11, nacked", include_str!("../scripts/outside/refusal-11-nacked.txt")),
    ("refusal 11, outside", include_str!("../scripts/outside/refusal-11-outside.txt")),
    ("refusal 12", include_str!("../scripts/outside/refusal-12.txt")),
    ("refusal 13", include_str!("../scripts/outside/refusal-13.txt")),
    ("refusal 14", include_str!("../scripts/outside/refusal-14.txt")),
    ("K9", include_str!("../scripts/outside/k9-second-seek.txt")),
    ("seek past the end", include_str!("../scripts/outside/seek-past-end.txt")),
];

/// What document 01 marks "Run", opening apart, which needs a shorter store as well.
fn run_readings() -> String {
    let start = "open 32 0 0\nappend 1 1 0 100 0\nsubscribe 7 shared 1 1\nsubscribe 8 plain 1 1\n";
    let mut text = String::from("# batch 256 and 257\n");
    text += "open 32 0 0\nsubscribe 7 shared 1 1\nappend 1 1 0 100 256\nappend 1 1 1 101 257\n";
    text += "flow 7 1\npush\n";
    for count in [64, 65] {
        text += &format!("# {count} groups, ack and redeliver, shared and plain\n{start}");
        text += "flow 7 1\npush\n";
        let groups = vec![Group { ledger: 1, entry: 0, words: Vec::new() }; count];
        for consumer in [7, 8] {
            for call in [
                Call::Redeliver { consumer, groups: groups.clone() },
                Call::Ack { consumer, groups: groups.clone() },
            ] {
                text += &format!("{}\n", format_call(&call));
            }
        }
    }
    text += "# a list of due and of due - 1 records: one less gets 15, and changes nothing\n";
    text += start;
    text += "append 1 1 1 101 3\nappend 1 1 2 102 1\nflow 7 2\nflow 8 2\n";
    text + "push 3\npush 0\npush 4\npush 0\n"
}

/// The balance check where ring ids are live, plain, under another subscription or not live.
fn balance_readings() -> String {
    let mut text = String::new();
    for leak in [0, 1] {
        text += &format!("# the balance check, leak {leak}\nopen 32 {leak} 0\nbalance\n");
        text += "append 1 1 0 100 100\nsubscribe 7 shared 1 1\nsubscribe 8 shared 1 1\n";
        text += "subscribe 9 shared 1 2\nflow 7 1\nflow 8 5\nflow 9 400\nbalance\n";
        text += "push\nbalance\nsubscribe 8 plain 1 1\nflow 8 30\nbalance\n";
        text += "subscribe 9 shared 1 1\nflow 9 2\nbalance\nsubscribe 9 shared 1 2\nbalance\n";
        text += "close 7\nbalance\nclose 8\nclose 9\nbalance\n";
    }
    text
}

fn listed(calls: &[Call]) -> String {
    calls.iter().map(|call| format_call(call) + "\n").collect()
}

/// The runner's input.
pub fn script() -> Result<String, String> {
    let mut text = rows::before_open();
    text += &run_readings();
    text += &rows::script()?;
    text += &balance_readings();
    for (name, script) in OUTSIDE {
        text += &format!("# {name}\n{}balance\n", listed(&calls(script)?));
    }
    for (name, calls) in limits::outside() {
        text += &format!("# {name}\n{}", listed(&calls));
    }
    text += &format!("{FIXED_LIST}\n");
    for calls in vectors::sequences() {
        text += &listed(&calls);
    }
    Ok(text)
}

/// A push with room for so many records: 15 with the number due, or the model's push.
pub fn push(model: &mut Model, room: usize) -> (Outcome, String) {
    let mut after = model.clone();
    let outcome = after.call(&Call::Push);
    let due = outcome.records.len();
    if due > room {
        return (Outcome::refused(15), format!("refused 15, due {due}"));
    }
    *model = after;
    let text = outcome_text(&Call::Push, &outcome);
    (outcome, text)
}

/// The balance checks, a line for each dispatcher.
fn balances(model: &Model) -> String {
    let mut text = format!("dispatchers {}", model.dispatchers.len());
    for (d, dispatcher) in model.dispatchers.iter().enumerate() {
        let balance = model.balance_check(dispatcher);
        let total = dispatcher.total_available_permits;
        text += &format!("\n  + dispatcher {d}: balance {balance} total {total}");
    }
    text
}

/// The output for one line of the input: the outcome, and its text without the line itself.
fn answer(model: &mut Model, line: &str) -> Result<(Option<Call>, Outcome, String), String> {
    if line == "balance" {
        return Ok((None, Outcome::done(0), balances(model)));
    }
    if let Some(words) = line.strip_prefix("row ") {
        return Ok((None, Outcome::done(0), rows::answer(model, words)?));
    }
    if let Some(room) = line.strip_prefix("push ") {
        let room = room.parse().map_err(|_| format!("expected a number of records: '{line}'"))?;
        let (outcome, text) = push(model, room);
        return Ok((None, outcome, text));
    }
    match parse(line)?.pop() {
        Some((_, Line::Call(Call::Push))) => {
            let (outcome, text) = push(model, ROOM);
            Ok((Some(Call::Push), outcome, text))
        }
        Some((_, Line::Call(call))) => {
            let outcome = model.call(&call);
            let text = outcome_text(&call, &outcome);
            Ok((Some(call), outcome, text))
        }
        _ => Err(format!("no call: '{line}'")),
    }
}

/// Whether broker.rs gives the same, its records told per consumer.
fn agrees(reference: &mut Reference, call: Option<Call>, outcome: &Outcome) -> bool {
    call.is_some_and(|call| {
        let rust = reference.call(&call);
        (rust.value, rust.number) == (outcome.value, outcome.number)
            && rust.grouped() == outcome.grouped()
    })
}

/// What the runner has to print for the script.
fn replayed(script: &str) -> Result<String, String> {
    let mut model = Model::new();
    let mut reference = None;
    let mut out = String::new();
    for line in script.lines() {
        if line.starts_with('#') {
            out += &format!("{line}\n");
            reference = (line == FIXED_LIST).then(Reference::new);
            continue;
        }
        let (call, outcome, text) = answer(&mut model, line)?;
        if let Some(reference) = &mut reference {
            if !agrees(reference, call, &outcome) {
                return Err(format!("broker.rs and the model differ: {line}"));
            }
        }
        out += &format!("{line} = {text}\n");
        for record in &outcome.records {
            out += &format!("  + {}\n", record_text(record));
        }
        if line.starts_with("push") {
            out += AS_RECORDS;
        }
    }
    Ok(out)
}

/// A line about bits: four words, how many bits are set, and whether none is.
fn bits_line(label: &str, words: &[u64]) -> String {
    let word = |i: usize| words.get(i).copied().unwrap_or(0);
    let set: u32 = words.iter().map(|w| w.count_ones()).sum();
    let complete = if set == 0 { " complete" } else { "" };
    let all: Vec<String> = (0..4).map(|i| format!("{:016x}", word(i))).collect();
    format!("{label}: {} set {set}{complete}\n", all.join(" "))
}

fn bits() -> String {
    let five = and_fresh(3, &[5]).0;
    let then_two: Vec<u64> = five.iter().map(|w| w & 2).collect();
    String::from("# bits of an entry\n")
        + &bits_line("K1 batch 65", &fresh(65))
        + &bits_line("K2 batch 0", &fresh(0))
        + &bits_line("K2 batch 1", &fresh(1))
        + &bits_line("K3 batch 3, words 5", &five)
        + &bits_line("K3 then words 2", &then_two)
        + &bits_line("K4 batch 65, one word of ones", &and_fresh(65, &[u64::MAX]).0)
        + &bits_line("batch 256", &fresh(256))
}

fn number_line(label: &str, number: u8) -> String {
    match number {
        0 => format!("{label}: done\n"),
        _ => format!("{label}: refused {number}\n"),
    }
}

/// Opening a store of so many words: the model's 2, then 3 by document 01's length.
fn opening(words: u64, entries: u64) -> String {
    let call = Call::Open { entries, leak: 0, noop: 0 };
    let refused = Model::new().call(&call).number;
    let short = 4096 + 128 * entries > words;
    let number = if refused == 0 && short { 3 } else { refused };
    number_line(&format!("open, E {entries}, {words} words"), number)
}

/// The appends of the runner's own code. The model has no words: 1 stands where the code
/// spoils them or has not opened them.
fn appends() -> String {
    let mut model = Model::new();
    model.call(&Call::Open { entries: 2, leak: 0, noop: 0 });
    let mut append = |label: &str, entry: u64, batch: u64| {
        let call = Call::Append { topic: 1, ledger: 0, entry, handle: 500, batch };
        number_line(label, model.call(&call).number)
    };
    String::from("# append\n")
        + &number_line("append, words all 0", 1)
        + &append("append (0,0)", 0, 1)
        + &append("append (0,0) again", 0, 1)
        + &append("append (0,0), batch 257", 0, 257)
        + &append("append (0,1), batch 256", 1, 256)
        + &append("append a third, E 2", 2, 1)
        + &append("append (0,0), a word past the needed ones 1", 0, 1)
        + &number_line("append (0,0), the last needed word 1", 1)
}

/// The calls of a consumer that is not live, on words that spell no state and after opening.
fn not_live() -> String {
    let mut model = Model::new();
    model.call(&Call::Open { entries: 32, leak: 0, noop: 0 });
    let seek = Call::Seek { consumer: 7, target: Target::Start };
    let three = [
        ("flow", Call::Flow { consumer: 7, grant: 1 }),
        ("seek", seek),
        ("close", Call::Close { consumer: 7 }),
    ];
    let mut text = String::from("# a consumer that is not live\n");
    for (name, _) in &three {
        text += &number_line(&format!("{name}, words all 0"), 1);
    }
    for (name, call) in &three {
        text += &number_line(&format!("{name}, 7 not live"), model.call(call).number);
    }
    text
}

/// The runner's output: the readings of its own code, then the script's.
pub fn answers() -> Result<String, String> {
    let mut text = bits();
    text += "# opening the store: E 4,096 and 4,097, 8,192 and 8,191 words\n";
    for (words, entries) in [(WORDS, 4096), (WORDS, 4097), (WORDS, 0), (WORDS, 32), (8191, 32)] {
        text += &opening(words, entries);
    }
    text += &appends();
    text += &not_live();
    Ok(text + &replayed(&script()?)?)
}
