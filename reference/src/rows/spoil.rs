//! Ways to spoil a row, so that it has to be refused: the words of its store and those of its script.

use super::script::{Record, joined};
use crate::rng::Rng;
use crate::trace::bytes::MOST_WORDS;

/// The ways to spoil a store's needed words.
pub const STORES: [&str; 8] = [
    "another tag",
    "no E",
    "a switch past 1",
    "a reserved word of the header",
    "33 consumers",
    "the last word",
    "too short",
    "a bit",
];

/// The ways to spoil a script.
pub const SCRIPTS: [&str; 9] = [
    "cut",
    "a word left over",
    "no kind",
    "a count past 1217",
    "a count past the end",
    "a count for another kind",
    "a subscribe's kind",
    "a seek's target",
    "too wide",
];

/// The store's words spoiled in one of the ways, of which only the last, a bit, may leave a state.
pub fn store(rng: &mut Rng, way: usize, words: &mut Vec<u64>, needed: usize) {
    match way {
        0 => words[0] ^= 1 << rng.below(64),
        1 => words[1] = *rng.pick(&[0, 4097, 1 << 32, u64::MAX]),
        2 => words[2 + rng.below(2) as usize] = *rng.pick(&[2, 256, u64::MAX]),
        3 => words[4 + rng.below(12) as usize] = 1 << rng.below(64),
        4 => words[16] = *rng.pick(&[33, 1 << 32, u64::MAX]),
        5 => words[needed - 1] = 1 << rng.below(64),
        6 => words.truncate(rng.below(needed as u64) as usize),
        _ => words[rng.below(needed as u64) as usize] ^= 1 << rng.below(64),
    }
}

/// The words of a script of these records spoiled in one of the ways, of which a cut may leave calls.
pub fn script(rng: &mut Rng, way: usize, records: &[Record]) -> Vec<u64> {
    let mut records = records.to_vec();
    let at = rng.below(1 + records.len() as u64) as usize;
    if let Some(unfit) = unfit(rng, way) {
        records.insert(at, unfit);
        return joined(&records);
    }
    let mut script = joined(&records);
    match way {
        0 => script.truncate(rng.below(1 + script.len() as u64) as usize),
        1 => script.push(rng.below(9)),
        _ => {
            let count = *rng.pick(&[1, 5, 1217, 1218, 1 << 32, 1 << 61, 1 << 63, u64::MAX]);
            script.extend([1 + rng.below(8), count]);
            script.extend((1..count.min(rng.below(6) + 1)).map(|_| rng.next()));
        }
    }
    script
}

/// A record that is no call by one of the ways, where it is such a way.
fn unfit(rng: &mut Rng, way: usize) -> Option<Record> {
    let (kind, words) = match way {
        2 => {
            let known = 1 + rng.below(8);
            let kinds = [0, 9, 10 + rng.next() / 2, 256 + known, (1 << 32) + known, u64::MAX];
            (*rng.pick(&kinds), vec![7; rng.below(6) as usize])
        }
        3 => {
            let many = MOST_WORDS + 1 + rng.below(40) as usize;
            (*rng.pick(&[4, 6]), vec![0; many])
        }
        5 => other_count(rng),
        6 => (2, vec![7, *rng.pick(&[2, 256, 257, u64::MAX]), 1, 1]),
        7 => {
            let word = *rng.pick(&[2, 256, 257, u64::MAX]);
            let targets = [vec![7, 1], vec![7, word], vec![7, 0, 1, 0], vec![7, word, 1, 0]];
            (5, rng.pick(&targets).clone())
        }
        8 => too_wide(rng),
        _ => return None,
    };
    Some(Record { kind, words })
}

/// Words that are right but for how many they are.
fn other_count(rng: &mut Rng) -> (u64, Vec<u64>) {
    let kind = 1 + rng.below(8);
    let right: &[usize] = match kind {
        1 => &[5],
        2 => &[4],
        3 => &[2],
        5 => &[2, 4],
        7 => &[1],
        8 => &[0],
        _ => return (kind, Vec::new()),
    };
    let wrong: Vec<usize> = (0..8).filter(|count| !right.contains(count)).collect();
    (kind, vec![0; *rng.pick(&wrong)])
}

/// An append, subscribe or flow with one number too wide for its field.
fn too_wide(rng: &mut Rng) -> (u64, Vec<u64>) {
    let byte = 1 << (8 + rng.below(56));
    match rng.below(4) {
        0 => (1, vec![byte, 1, 0, 0, 0]),
        1 => (2, vec![7, 1, byte, 1]),
        2 => (2, vec![7, 0, 1, byte | 1]),
        _ => (3, vec![7, 1 << (32 + rng.below(32))]),
    }
}

#[cfg(test)]
mod tests {
    use super::*;
    use crate::call::Call;
    use crate::rows::script::read;

    /// Every way but a cut, which may fall between two records.
    #[test]
    fn a_spoiled_script_is_no_script() {
        let mut rng = Rng::new(1);
        let good = vec![Record::of(&Call::Push), Record::of(&Call::Flow { consumer: 7, grant: 1 })];
        for way in 1..SCRIPTS.len() {
            for _ in 0..500 {
                let words = script(&mut rng, way, &good);
                assert!(!read(&words).1, "{}: {words:?}", SCRIPTS[way]);
            }
        }
    }
}
