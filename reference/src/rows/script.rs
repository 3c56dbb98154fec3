//! The words of a script: the records of calls one after the other, and a reading of them after the
//! text of `broker_calls`. Which words are a call is said where traces are read.

use crate::call::{self, Call};
use crate::trace::bytes::{MOST_WORDS, Step, parts, step};

/// A record of a script, of any kind and with any words.
#[derive(Clone)]
pub struct Record {
    pub kind: u64,
    pub words: Vec<u64>,
}

impl Record {
    pub fn of(call: &Call) -> Self {
        let (kind, words) = parts(call);
        Record { kind: u64::from(kind), words }
    }
}

/// The records one after the other: kind, count and words of each.
pub fn joined(records: &[Record]) -> Vec<u64> {
    let mut script = Vec::new();
    for Record { kind, words } in records {
        script.extend([*kind, words.len() as u64]);
        script.extend(words);
    }
    script
}

/// A call, and the list that an ack or redeliver is given.
pub struct Asked {
    pub call: Call,
    pub list: Vec<u64>,
}

impl Asked {
    /// Whether the list of an ack or redeliver is no row of whole groups.
    pub fn no_groups(&self) -> bool {
        match &self.call {
            Call::Ack { groups, .. } | Call::Redeliver { groups, .. } => {
                call::list(groups) != self.list
            }
            _ => false,
        }
    }
}

/// The calls up to the first record that is none, and whether they are the whole script.
pub fn read(script: &[u64]) -> (Vec<Asked>, bool) {
    let (mut calls, mut rest) = (Vec::new(), script);
    while !rest.is_empty() {
        let Some((asked, after)) = front(rest) else { return (calls, false) };
        calls.push(asked);
        rest = after;
    }
    (calls, true)
}

/// The call of the first record and the words after it.
fn front(script: &[u64]) -> Option<(Asked, &[u64])> {
    let (words, rest) = split(script)?;
    let kind = u8::try_from(script[0]).ok()?;
    let groups = Vec::new();
    let call = match (step(kind, words)?, kind) {
        (Step::Call(call), _) => call,
        (Step::NoGroups(consumer), 4) => Call::Ack { consumer, groups },
        (Step::NoGroups(consumer), _) => Call::Redeliver { consumer, groups },
    };
    let list = match call {
        Call::Ack { .. } | Call::Redeliver { .. } => words[1..].to_vec(),
        _ => Vec::new(),
    };
    Some((Asked { call, list }, rest))
}

/// The words of the first record and those after it, unless it is cut off or has too many.
fn split(script: &[u64]) -> Option<(&[u64], &[u64])> {
    let (head, rest) = script.split_at_checked(2)?;
    let count = usize::try_from(head[1]).ok().filter(|count| *count <= MOST_WORDS)?;
    rest.split_at_checked(count)
}

/// The words of a script, a line for each record with its place from 0, as far as there are any.
pub fn text(script: &[u64]) -> String {
    let line = |words: &[u64]| words.iter().map(u64::to_string).collect::<Vec<_>>().join(" ");
    let (mut lines, mut rest) = (Vec::new(), script);
    while let Some((words, after)) = split(rest) {
        lines.push(line(&rest[..2 + words.len()]));
        rest = after;
    }
    if !rest.is_empty() {
        lines.push(format!("{} (no record)", line(rest)));
    }
    lines.iter().enumerate().map(|(i, line)| format!("\n  {i}: {line}")).collect()
}

#[cfg(test)]
mod tests {
    use super::*;

    fn calls(script: &[u64]) -> (usize, bool) {
        let (calls, whole) = read(script);
        (calls.len(), whole)
    }

    #[test]
    fn scripts_that_are_calls() {
        assert_eq!(calls(&[]), (0, true));
        assert_eq!(calls(&[3, 2, 7, 1, 8, 0, 5, 2, 7, 0, 5, 4, 7, 1, 0, 0]), (4, true));
        assert_eq!(calls(&[4, 2, 7, 9, 6, 1, 7, 7, 1, 3]), (3, true));
        assert_eq!(calls(&[1, 5, 255, 0, 0, 0, u64::MAX]), (1, true));
        let most: Vec<u64> = [6, 1217].into_iter().chain(0..1217).collect();
        assert_eq!(calls(&most), (1, true));
    }

    #[test]
    fn scripts_with_a_record_that_is_none() {
        assert_eq!(calls(&[8]), (0, false));
        assert_eq!(calls(&[8, 0, 3, 2, 7]), (1, false));
        assert_eq!(calls(&[8, 0, 264, 0]), (1, false));
        assert_eq!(calls(&[8, 0, 8, u64::MAX]), (1, false));
        assert_eq!(calls(&[3, 2, 7, 1 << 32]), (0, false));
        let more: Vec<u64> = [6, 1218].into_iter().chain(0..1218).collect();
        assert_eq!(calls(&more), (0, false));
    }

    #[test]
    fn a_script_as_text() {
        assert_eq!(text(&[3, 2, 7, 1, 8, 0, 7]), "\n  0: 3 2 7 1\n  1: 8 0\n  2: 7 (no record)");
    }
}
