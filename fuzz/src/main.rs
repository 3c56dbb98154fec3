//! The check of a store, run on words. `fuzz` changes the words of good stores one at a time
//! and compares the check with `layout.rs`, which is written from docs/STORE.md alone.

mod good;
mod layout;

use std::process::exit;

use good::{Random, empty, full, random};
use layout::{State, encode, needed, spelt};

unsafe extern "C" {
    fn probe_spells(store: *const u64, len: usize) -> u64;
}

fn check(words: &[u64]) -> bool {
    // SAFETY: the pointer and the length are those of one slice, which the check only reads.
    unsafe { probe_spells(words.as_ptr(), words.len()) == 1 }
}

fn fail(message: &str) -> ! {
    println!("FAILED: {message}");
    exit(1)
}

/// What the runs of `fuzz` saw.
#[derive(Default)]
struct Seen {
    told: u64,
    other: u64,
}

/// The check and the plain reading of `words` have to agree.
fn compare(words: &[u64], what: &str, seen: &mut Seen) {
    let state = spelt(words);
    if check(words) != state.is_some() {
        fail(&format!(
            "{what}: the check says {}, docs/STORE.md {}",
            check(words),
            state.is_some()
        ));
    }
    match state {
        None => seen.told += 1,
        Some(state) if encode(&state) == words[..needed(state.e)] => seen.other += 1,
        Some(_) => fail(&format!("{what}: encode does not give the words back")),
    }
}

/// Values near the edges of what word `at` may hold, and one that means nothing.
fn changes(words: &[u64], at: usize, r: &mut Random) -> [u64; 6] {
    let word = words[at];
    let elsewhere = words[r.below(words.len())];
    let edges = [0, 1, 2, 32, 33, 64, 65, 255, 256, 257, 1 << 32, 1 << 62, u64::MAX];
    let bit = word ^ (1 << r.below(64));
    [word.wrapping_add(1), word.wrapping_sub(1), bit, elsewhere, edges[r.below(13)], r.word()]
}

/// Every change of one word at each of `places`.
fn change_each(words: &mut [u64], places: &[usize], what: &str, r: &mut Random, seen: &mut Seen) {
    for &at in places {
        let kept = words[at];
        for value in changes(words, at, r) {
            words[at] = value;
            compare(words, &format!("{what}, word {at} = {value:#x} (was {kept:#x})"), seen);
        }
        words[at] = kept;
    }
}

/// Two neighbouring outside ids of each dispatcher in the other order, and the first of them twice:
/// neither spells a state.
fn exchange_outside(words: &mut [u64], state: &State, what: &str, seen: &mut Seen) {
    for (d, dispatcher) in state.dispatchers.iter().enumerate() {
        let at = 2355 + 32 * state.e + d * (176 + 9 * state.e) + 45;
        for j in 1..dispatcher.outside.len() {
            let two = at + 2 * (j - 1)..at + 2 * (j + 1);
            let kept = words[two.clone()].to_vec();
            let told = seen.told;
            words[two.clone()].rotate_left(2);
            compare(words, &format!("{what}, outside ids {j} and the one before exchanged"), seen);
            words[two.clone()].copy_from_slice(&[kept[0], kept[1], kept[0], kept[1]]);
            compare(words, &format!("{what}, outside id {j} is the one before it"), seen);
            if seen.told != told + 2 {
                fail(&format!("{what}: outside ids that do not ascend spell a state"));
            }
            words[two].copy_from_slice(&kept);
        }
    }
}

/// One good store: it is accepted, its changes are told or spell another state, and words past
/// the needed ones and shorter stores are treated as they should be.
fn try_state(state: &State, what: &str, at_most: usize, r: &mut Random, seen: &mut Seen) {
    let mut words = encode(state);
    if !check(&words) || spelt(&words).is_none() {
        fail(&format!("{what}: a good store is not accepted"));
    }
    let used: Vec<usize> = (0..words.len()).filter(|at| words[*at] != 0).collect();
    let some = |from: &[usize], r: &mut Random| -> Vec<usize> {
        if from.len() <= at_most {
            return from.to_vec();
        }
        (0..at_most).map(|_| from[r.below(from.len())]).collect()
    };
    let all: Vec<usize> = (0..words.len()).collect();
    change_each(&mut words, &some(&used, r), what, r, seen);
    change_each(&mut words, &some(&all, r), what, r, seen);
    exchange_outside(&mut words, state, what, seen);
    for len in [0, 1, 15, 16, words.len() - 1] {
        compare(&words[..len], &format!("{what}, {len} words"), seen);
    }
    words.extend([r.word(), r.word()]);
    compare(&words, &format!("{what}, longer"), seen);
}

fn fuzz(seed: u64) {
    let mut r = Random(seed);
    let mut seen = Seen::default();
    let mut stores = 0;
    for (e, count, at_most) in
        [(1, 150, 400), (3, 150, 400), (32, 120, 300), (257, 20, 100), (4096, 2, 30)]
    {
        for turn in 0..count {
            let what = format!("seed {seed}, E {e}, state {turn}");
            try_state(&random(&mut r, e), &what, at_most, &mut r, &mut seen);
        }
        for state in [empty(e), full(e)] {
            try_state(
                &state,
                &format!("seed {seed}, E {e}, empty or full"),
                at_most,
                &mut r,
                &mut seen,
            );
        }
        stores += count + 2;
    }
    println!(
        "fuzz: {stores} good stores accepted; of their changed words {} were told and {} spell another state",
        seen.told, seen.other
    );
}

fn main() {
    let arguments: Vec<String> = std::env::args().skip(1).collect();
    match arguments.iter().map(String::as_str).collect::<Vec<_>>()[..] {
        ["fuzz", seed] => fuzz(seed.parse().unwrap_or_else(|_| fail("the seed is a number"))),
        _ => fail("usage: fuzz fuzz SEED"),
    }
}
