//! The case runner's rows of calls. A line `row A R w1 w2 ..` is a row with A words for answers, a list of
//! R records and the words w1 w2 .. as its script; the runner has 64 of either and takes a larger
//! number for 64. The answers are those of the script's calls made one after the other on the model.

use super::push;
use crate::call::{Call, Group, Outcome, Side};
use crate::model::{MAX_GROUPS, MAX_WORDS, Model};
use crate::play::{outcome_text, record_text};
use crate::rows::script::{Asked, Record, joined, read};
use crate::script::calls;

/// The most answers and the most records that the runner lends.
const MOST: usize = 64;

fn line(answers: u64, records: u64, script: &[u64]) -> String {
    let numbers = [answers, records].into_iter().chain(script.iter().copied());
    let words: Vec<String> = numbers.map(|number| number.to_string()).collect();
    format!("row {}\n", words.join(" "))
}

/// A row of these calls, which stand one after the other with a semicolon between them.
fn row(answers: u64, records: u64, text: &str) -> Result<String, String> {
    let calls = calls(&text.replace(';', "\n"))?;
    let script: Vec<Record> = calls.iter().map(Record::of).collect();
    Ok(line(answers, records, &joined(&script)))
}

/// Rows of words, each with four answers and a list of four records.
fn of_words(scripts: &[&[u64]]) -> String {
    scripts.iter().map(|script| line(4, 4, script)).collect()
}

/// Rows before the runner's store is opened.
pub fn before_open() -> String {
    String::from("# a row, words all 0: no state is refused by 1, which comes before 18 and 64\n")
        + &line(4, 4, &[8, 0])
        + &line(0, 0, &[])
        + &line(0, 0, &[8, 0, 8])
}

fn examples() -> Result<String, String> {
    let first = "append 1 1 0 5 0; subscribe 7 shared 1 1; flow 7 2; push";
    let mut text = String::from("# a row: document 02's example, an answer for each call\n");
    text += &format!("open 32 0 0\n{}balance\n", row(4, 1, first)?);
    text += "# a row: every kind, the second seek by id\nopen 32 0 0\n";
    text += &row(
        64,
        64,
        "subscribe 7 shared 1 1; subscribe 8 plain 1 2; append 1 1 0 100 3; append 1 1 1 101 0; flow 7 5; \
         flow 8 2; push; ack 7 1 0 1 5; redeliver 7 1 0 0; redeliver 8 1 1 0; seek 8 start; seek 7 id 1 1; \
         flow 8 3; push; ack 7 1 0 0 1 1 0; close 7; close 9",
    )?;
    text += "balance\n# a row: an empty script is done with no answers, list and calls\n";
    Ok(text + &line(0, 0, &[]) + &line(u64::MAX, u64::MAX, &[]))
}

/// Rows of several pushes on four entries.
fn pushes() -> Result<String, String> {
    let start = "open 32 0 0\nsubscribe 7 shared 1 1\nsubscribe 8 plain 1 1\nappend 1 1 0 100 0\n\
                 append 1 1 1 101 0\nappend 1 1 2 102 1\nappend 1 1 3 103 2\n";
    let two = "flow 7 2; push; flow 8 1; push";
    let mut text = format!("# a row: records stand in the list one push after the other\n{start}");
    text += &row(4, 3, two)?;
    text += &row(7, 4, "flow 7 1; push; flow 8 2; push; push; flow 7 2; push")?;
    text += &format!("# a row: one record too few is 15 with the number due\n{start}");
    text += &row(4, 2, two)?;
    text += &row(6, 3, "push; flow 7 1; push; flow 8 2; flow 99 1; push")?;
    text += &row(1, 1, "push")?;
    text += &row(1, 2, "push")?;
    text += "# a row: after 15 a later push has the same rest, and what fits it is made\n";
    let later =
        "flow 7 1; push; flow 7 3; push; push; close 7; subscribe 9 shared 1 1; flow 9 2; push";
    text += &format!("{start}{}", row(9, 3, later)?);
    Ok(text + "balance\n")
}

/// Refused calls in rows that are done.
fn refused_calls() -> Result<String, String> {
    let mut text =
        String::from("# a row: a refused call has its own answer, and the row goes on\n");
    text += "open 32 0 0\nappend 1 1 0 100 0\nsubscribe 7 shared 1 1\n";
    text += &row(
        8,
        8,
        "flow 99 1; append 1 1 0 100 0; append 1 1 1 101 257; flow 7 1; ack 99; redeliver 99 1 0 0; \
         seek 99 start; push",
    )?;
    text +=
        "# a row: a list that is cut is a call that gets 10, or 4 where no such consumer is live\n";
    let cut = [4, 3, 7, 1, 0, 4, 4, 7, 1, 0, 2, 6, 2, 7, 1, 4, 3, 99, 1, 0, 6, 4, 7, 1, 0, 0, 8, 0];
    text += &line(6, 1, &cut);
    text += "# a row: the longest record, and one with a word more, which is no call\n";
    let group = Group { ledger: 1, entry: 0, words: vec![1; MAX_WORDS] };
    let longest = Record::of(&Call::Redeliver { consumer: 7, groups: vec![group; MAX_GROUPS] });
    let mut longer = longest.clone();
    longer.words.push(1);
    Ok(text + &line(1, 0, &joined(&[longest])) + &line(1, 0, &joined(&[longer])))
}

/// Rows that are refused, and rows that show that nothing was changed.
fn refused_rows() -> Result<String, String> {
    let mut text = String::from("# a row: a record that is cut off is no call\nopen 32 0 0\n");
    text += &of_words(&[&[8], &[8, 0, 3, 2, 7]]);
    text += "# a row: a kind is 1 to 8\n";
    text += &of_words(&[&[0, 0], &[9, 0], &[264, 0]]);
    text += "# a row: each kind has its count of words\n";
    text += &of_words(&[&[3, 1, 7], &[8, 1, 0], &[4, 0]]);
    text += "# a row: topic and subscription are at most 255, a grant is at most 2^32 - 1\n";
    text += &of_words(&[&[1, 5, 256, 1, 0, 5, 0], &[2, 4, 7, 1, 1, 256], &[3, 2, 7, 1 << 32]]);
    text += &row(4, 4, "append 255 1 0 5 0; subscribe 7 shared 255 255; flow 7 4294967295; push")?;
    text += "# a row: a subscribe's kind is 0 or 1, a seek's target 0 with no id or 1 with one\n";
    text +=
        &of_words(&[&[2, 4, 7, 2, 1, 1], &[5, 4, 7, 2, 1, 0], &[5, 4, 7, 0, 1, 0], &[5, 2, 7, 1]]);
    text += "# a row: more calls than answers are refused by 64 with the number of calls\n";
    text += &line(0, 4, &[8, 0]);
    text += &line(65, 0, &[8, 0].repeat(65));
    let three = "append 1 1 0 5 0; subscribe 8 shared 1 1; flow 8 1";
    text += &row(2, 1, three)?;
    text += "# a row: 18 comes before 64\n";
    text += &line(0, 4, &[8, 0, 8]);
    text +=
        "# a row: a refused row has made none of its calls, as the row of the same calls shows\n";
    text += &line(4, 4, &[1, 5, 1, 1, 0, 5, 0, 8]);
    Ok(text + &row(3, 1, three)? + "push 1\nbalance\n")
}

/// The rows of the runner's input, after its store was opened.
pub fn script() -> Result<String, String> {
    Ok(examples()? + &pushes()? + &refused_calls()? + &refused_rows()?)
}

/// A call of a row, where so many records of the list are left, and its text. A list that is no row of
/// groups has the place of one that is too long.
fn made(model: &mut Model, asked: &Asked, left: usize) -> (Outcome, String) {
    let outcome = match &asked.call {
        Call::Push => return push(model, left),
        Call::Ack { consumer, .. } | Call::Redeliver { consumer, .. } if asked.no_groups() => {
            Outcome::refused(if model.live(*consumer).is_some() { 10 } else { 4 })
        }
        call => model.call(call),
    };
    let text = outcome_text(&asked.call, &outcome);
    (outcome, text)
}

/// The calls of a row that is not refused, with a list of so many records.
fn done(model: &mut Model, asked: &[Asked], records: usize) -> String {
    let mut left = records;
    let mut text = format!("done, calls {}", asked.len());
    for (i, asked) in asked.iter().enumerate() {
        let (outcome, call) = made(model, asked, left);
        left -= outcome.records.len();
        text += &format!("\n  {}: {call}", i + 1);
        for record in &outcome.records {
            text += &format!("\n  + {}", record_text(record));
        }
    }
    text
}

/// The output for the words of a row. A store that was never opened spells no state.
pub fn answer(model: &mut Model, words: &str) -> Result<String, String> {
    let numbers = words.split(' ').map(|word| word.parse::<u64>());
    let numbers: Vec<u64> =
        numbers.collect::<Result<_, _>>().map_err(|_| format!("expected numbers: '{words}'"))?;
    let [answers, records, script @ ..] = &numbers[..] else {
        return Err(format!("expected answers, records and a script: '{words}'"));
    };
    let lent = |number: &u64| usize::try_from(*number).unwrap_or(MOST).min(MOST);
    let (asked, whole) = read(script);
    Ok(if model.entries == 0 {
        "refused 1".to_owned()
    } else if !whole {
        "refused 18".to_owned()
    } else if asked.len() > lent(answers) {
        format!("refused 64, calls {}", asked.len())
    } else {
        done(model, &asked, lent(records))
    })
}
