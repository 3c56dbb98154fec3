//! The call script: text, one call a line, decimal numbers, `#` begins a comment.
//!
//!   open E leak noop
//!   append topic ledger entry handle batch
//!   subscribe consumer plain|shared topic subscription
//!   flow consumer grant
//!   ack consumer [ledger entry n w1..wn]...
//!   seek consumer start
//!   seek consumer id ledger entry
//!   redeliver consumer [ledger entry n w1..wn]...
//!   close consumer
//!   push
//!
//! Two more lines serve the readings about bits alone and are no calls:
//!
//!   fresh batch            fresh_unacked_bits(batch)
//!   and batch w1..wn       and_into on fresh bits

use std::str::FromStr;

use crate::call::{Call, Group, Kind, Target, list};

#[derive(Debug, Clone, PartialEq, Eq)]
pub enum Line {
    Call(Call),
    Fresh(i32),
    And(i32, Vec<u64>),
}

/// The words of one line, taken from the left.
struct Words<'a> {
    rest: std::str::SplitWhitespace<'a>,
}

impl<'a> Words<'a> {
    fn next(&mut self, what: &str) -> Result<&'a str, String> {
        self.rest.next().ok_or_else(|| format!("expected {what}, found the end of the line"))
    }

    fn number<T: FromStr>(&mut self, what: &str) -> Result<T, String> {
        let word = self.next(what)?;
        word.parse().map_err(|_| format!("expected {what}, found '{word}'"))
    }

    fn numbers(&mut self, what: &str) -> Result<Vec<u64>, String> {
        let mut numbers = Vec::new();
        while self.rest.clone().next().is_some() {
            numbers.push(self.number(what)?);
        }
        Ok(numbers)
    }

    fn groups(&mut self) -> Result<Vec<Group>, String> {
        let mut groups = Vec::new();
        while self.rest.clone().next().is_some() {
            let ledger = self.number("a ledger id")?;
            let entry = self.number("an entry id")?;
            let n: usize = self.number("a number of ack set words")?;
            let words = (0..n).map(|_| self.number("an ack set word")).collect::<Result<_, _>>()?;
            groups.push(Group { ledger, entry, words });
        }
        Ok(groups)
    }

    fn end(&mut self) -> Result<(), String> {
        match self.rest.next() {
            None => Ok(()),
            Some(word) => Err(format!("expected the end of the line, found '{word}'")),
        }
    }
}

fn kind(words: &mut Words) -> Result<Kind, String> {
    match words.next("plain or shared")? {
        "plain" => Ok(Kind::Plain),
        "shared" => Ok(Kind::Shared),
        word => Err(format!("expected plain or shared, found '{word}'")),
    }
}

fn target(words: &mut Words) -> Result<Target, String> {
    match words.next("start or id")? {
        "start" => Ok(Target::Start),
        "id" => Ok(Target::Id(words.number("a ledger id")?, words.number("an entry id")?)),
        word => Err(format!("expected start or id, found '{word}'")),
    }
}

const TOPIC: &str = "a topic (0 to 255)";
const SUBSCRIPTION: &str = "a subscription (0 to 255)";
const CONSUMER: &str = "a consumer id";

fn parse_line(name: &str, words: &mut Words) -> Result<Line, String> {
    let call = match name {
        "open" => Call::Open {
            entries: words.number("the entries per topic")?,
            leak: words.number("the leak switch")?,
            noop: words.number("the no-op switch")?,
        },
        "append" => Call::Append {
            topic: words.number(TOPIC)?,
            ledger: words.number("a ledger id")?,
            entry: words.number("an entry id")?,
            handle: words.number("a handle")?,
            batch: words.number("a batch size")?,
        },
        "subscribe" => Call::Subscribe {
            consumer: words.number(CONSUMER)?,
            kind: kind(words)?,
            topic: words.number(TOPIC)?,
            subscription: words.number(SUBSCRIPTION)?,
        },
        "flow" => Call::Flow {
            consumer: words.number(CONSUMER)?,
            grant: words.number("a grant (32 bits)")?,
        },
        "ack" => Call::Ack { consumer: words.number(CONSUMER)?, groups: words.groups()? },
        "seek" => Call::Seek { consumer: words.number(CONSUMER)?, target: target(words)? },
        "redeliver" => {
            Call::Redeliver { consumer: words.number(CONSUMER)?, groups: words.groups()? }
        }
        "close" => Call::Close { consumer: words.number(CONSUMER)? },
        "push" => Call::Push,
        "fresh" => return Ok(Line::Fresh(words.number("a batch size")?)),
        "and" => {
            return Ok(Line::And(words.number("a batch size")?, words.numbers("an ack set word")?));
        }
        word => return Err(format!("expected the name of a call, found '{word}'")),
    };
    Ok(Line::Call(call))
}

/// The lines that hold something, each with its number from 1.
pub fn parse(text: &str) -> Result<Vec<(usize, Line)>, String> {
    let mut lines = Vec::new();
    for (at, text) in text.lines().enumerate() {
        let at = at + 1;
        let text = text.split('#').next().unwrap_or("");
        let mut words = Words { rest: text.split_whitespace() };
        let Some(name) = words.rest.next() else { continue };
        let line = parse_line(name, &mut words).and_then(|line| words.end().map(|()| line));
        lines.push((at, line.map_err(|e| format!("line {at}: {e}"))?));
    }
    Ok(lines)
}

/// The calls alone, for a comparison.
pub fn calls(text: &str) -> Result<Vec<Call>, String> {
    let lines = parse(text)?;
    let calls = lines.into_iter().filter_map(|(_, line)| match line {
        Line::Call(call) => Some(call),
        _ => None,
    });
    Ok(calls.collect())
}

/// The line that `parse` reads back as this call.
pub fn format_call(call: &Call) -> String {
    let with_list = |name: &str, consumer: &u64, groups: &[Group]| {
        let mut words = vec![name.to_owned(), consumer.to_string()];
        words.extend(list(groups).iter().map(u64::to_string));
        words.join(" ")
    };
    match call {
        Call::Open { entries, leak, noop } => format!("open {entries} {leak} {noop}"),
        Call::Append { topic, ledger, entry, handle, batch } => {
            format!("append {topic} {ledger} {entry} {handle} {batch}")
        }
        Call::Subscribe { consumer, kind, topic, subscription } => {
            let kind = if *kind == Kind::Shared { "shared" } else { "plain" };
            format!("subscribe {consumer} {kind} {topic} {subscription}")
        }
        Call::Flow { consumer, grant } => format!("flow {consumer} {grant}"),
        Call::Ack { consumer, groups } => with_list("ack", consumer, groups),
        Call::Seek { consumer, target: Target::Start } => format!("seek {consumer} start"),
        Call::Seek { consumer, target: Target::Id(ledger, entry) } => {
            format!("seek {consumer} id {ledger} {entry}")
        }
        Call::Redeliver { consumer, groups } => with_list("redeliver", consumer, groups),
        Call::Close { consumer } => format!("close {consumer}"),
        Call::Push => "push".to_owned(),
    }
}

#[cfg(test)]
mod tests {
    use super::*;
    use crate::generator::{ALL, Wanted, sequence};
    use crate::rng::Rng;

    #[test]
    fn a_call_reads_back_as_it_was_written() {
        let made = sequence(&mut Rng::new(3), &Wanted::calls(2000, ALL));
        let text: Vec<String> = made.iter().map(format_call).collect();
        assert_eq!(calls(&text.join("\n")), Ok(made));
    }

    #[test]
    fn a_malformed_line_is_named() {
        let bad = [
            ("push\nflow 7", "line 2: expected a grant (32 bits), found the end of the line"),
            ("flow 7 4294967296", "line 1: expected a grant (32 bits), found '4294967296'"),
            ("append 256 1 0 0 0", "line 1: expected a topic (0 to 255), found '256'"),
            ("\n# remark\npush 1", "line 3: expected the end of the line, found '1'"),
            ("subscribe 7 both 1 1", "line 1: expected plain or shared, found 'both'"),
            ("seek 7 end", "line 1: expected start or id, found 'end'"),
            ("ack 7 1 0 2 5", "line 1: expected an ack set word, found the end of the line"),
            ("pull", "line 1: expected the name of a call, found 'pull'"),
        ];
        for (text, message) in bad {
            assert_eq!(parse(text), Err(message.to_owned()));
        }
    }
}
