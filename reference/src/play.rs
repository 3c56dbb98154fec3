//! `reference play`: runs a script on broker.rs and prints what it gave. The model can be
//! played too, to see what document 01 says where the two part.

use crate::broker::driver::{and_fresh, fresh};
use crate::call::{Call, Outcome, Record, Side};
use crate::script::{Line, format_call, parse};

pub fn outcome_text(call: &Call, outcome: &Outcome) -> String {
    if outcome.number != 0 {
        return format!("refused {}", outcome.number);
    }
    let value = outcome.value;
    match call {
        Call::Flow { .. } => format!("done, permits {value}"),
        Call::Ack { .. } => {
            let moved = if value % 2 == 1 { "moved" } else { "not moved" };
            format!("done, mark_delete {} {moved}", value / 2)
        }
        Call::Seek { .. } => format!("done, cursor {value}"),
        Call::Close { .. } => format!("done, closed {value}"),
        Call::Push => format!("done, dispatches {value}"),
        _ => "done".to_owned(),
    }
}

pub fn record_text(record: &Record) -> String {
    format!(
        "{}: id ({},{}) handle {} batch {} ack_set {:?} redelivery_count {} cost {} permits {}",
        record.consumer,
        record.ledger,
        record.entry,
        record.handle,
        record.batch,
        record.ack_set,
        record.redelivery_count,
        record.cost,
        record.permits
    )
}

/// Prints each answer, the dispatches per consumer and, if asked for, the state after
/// each call. The lines about bits alone always run on broker.rs.
pub fn play(text: &str, side: &mut dyn Side, with_state: bool) -> Result<String, String> {
    let mut out = String::new();
    for (_, line) in parse(text)? {
        match line {
            Line::Fresh(batch) => out += &format!("fresh {batch} = {:?}\n", fresh(batch)),
            Line::And(batch, words) => {
                let (bits, left) = and_fresh(batch, &words);
                out += &format!("and {batch} {words:?} = {bits:?}, {left} left\n");
            }
            Line::Call(call) => {
                let outcome = side.call(&call);
                out += &format!("{} = {}\n", format_call(&call), outcome_text(&call, &outcome));
                for record in &outcome.grouped() {
                    out += &format!("  + {}\n", record_text(record));
                }
                if with_state {
                    for line in side.state().map(|s| s.lines()).unwrap_or_default() {
                        out += &format!("    {line}\n");
                    }
                }
            }
        }
    }
    Ok(out)
}
