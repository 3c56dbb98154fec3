//! Cuts a failing call sequence down: whole runs of calls first, then single calls, then
//! groups of lists and their words, as long as the sequence still fails.

use crate::call::{Call, Group};

/// A bound on the trials, so that a difference is reported soon.
const TRIALS: usize = 20_000;

struct Shrinker<'a> {
    fails: &'a dyn Fn(&[Call]) -> bool,
    trials: usize,
}

impl Shrinker<'_> {
    fn still_fails(&mut self, calls: &[Call]) -> bool {
        self.trials += 1;
        self.trials <= TRIALS && (self.fails)(calls)
    }

    /// Cuts runs of `size` calls wherever that keeps the failure.
    fn cut_calls(&mut self, calls: &mut Vec<Call>, size: usize) -> bool {
        let mut cut = false;
        let mut at = 0;
        while at < calls.len() {
            let mut shorter = calls.clone();
            shorter.drain(at..(at + size).min(calls.len()));
            if self.still_fails(&shorter) {
                *calls = shorter;
                cut = true;
            } else {
                at += size;
            }
        }
        cut
    }

    fn cut_groups(&mut self, calls: &mut Vec<Call>) -> bool {
        let mut cut = false;
        for at in 0..calls.len() {
            let mut place = 0;
            while place < groups_of(&mut calls[at]).map_or(0, |g| g.len()) {
                let mut shorter = calls.clone();
                groups_of(&mut shorter[at]).expect("it has a list").remove(place);
                if self.still_fails(&shorter) {
                    *calls = shorter;
                    cut = true;
                } else {
                    place += 1;
                }
            }
        }
        cut
    }
}

fn groups_of(call: &mut Call) -> Option<&mut Vec<Group>> {
    match call {
        Call::Ack { groups, .. } | Call::Redeliver { groups, .. } => Some(groups),
        _ => None,
    }
}

pub fn shrink(calls: &[Call], fails: &dyn Fn(&[Call]) -> bool) -> Vec<Call> {
    let mut calls = calls.to_vec();
    let mut shrinker = Shrinker { fails, trials: 0 };
    let mut size = calls.len().div_ceil(2);
    while size > 1 {
        shrinker.cut_calls(&mut calls, size);
        size /= 2;
    }
    while shrinker.cut_calls(&mut calls, 1) | shrinker.cut_groups(&mut calls) {}
    calls
}

#[cfg(test)]
mod tests {
    use super::*;

    /// Fails while one push and one list with the id (1,1) are left, in this order.
    #[test]
    fn only_what_is_needed_stays() {
        let group = |entry| Group { ledger: 1, entry, words: Vec::new() };
        let ack = |groups| Call::Ack { consumer: 7, groups };
        let mut calls = vec![Call::Close { consumer: 1 }; 50];
        calls.insert(20, Call::Push);
        calls.insert(40, ack(vec![group(0), group(1), group(2)]));
        let fails = |calls: &[Call]| {
            let push = calls.iter().position(|c| *c == Call::Push);
            let list = calls
                .iter()
                .position(|c| matches!(c, Call::Ack { groups, .. } if groups.contains(&group(1))));
            push.zip(list).is_some_and(|(push, list)| push < list)
        };
        assert_eq!(shrink(&calls, &fails), vec![Call::Push, ack(vec![group(1)])]);
    }
}
