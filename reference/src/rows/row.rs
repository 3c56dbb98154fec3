//! One row: what it is lent, the row made by `broker_calls`, and the same calls made one by one by the
//! other exports.

use super::script::{Asked, read, text};
use crate::c_side;
use crate::call::Call;
use crate::speed::perform;

/// What lent words hold before anything has written them.
const FILL: u64 = 0xa5a5_5a5a_0f0f_f0f0;
/// Words on each side of what is lent, which nobody may touch.
const GUARD: usize = 7;
/// The words of a dispatch.
pub const DISPATCH: usize = 13;
/// Refused by 8 where the words spell a state, else by 1; it never changes a word.
const CHECK: Call = Call::Append { topic: 0, ledger: 0, entry: 0, handle: 0, batch: 257 };

/// Words that are lent, between guards.
#[derive(Default)]
pub struct Lent {
    words: Vec<u64>,
    length: usize,
}

impl Lent {
    /// Makes it these words; its room is used again.
    pub fn set(&mut self, words: &[u64]) {
        self.length = words.len();
        self.words.clear();
        self.words.resize(GUARD, FILL);
        self.words.extend(words);
        self.words.resize(2 * GUARD + words.len(), FILL);
    }

    /// Makes it so many words that nothing has written.
    pub fn fill(&mut self, length: usize) {
        self.length = length;
        self.words.clear();
        self.words.resize(2 * GUARD + length, FILL);
    }

    pub fn all(&self) -> &[u64] {
        &self.words[GUARD..GUARD + self.length]
    }

    pub fn all_mut(&mut self) -> &mut [u64] {
        &mut self.words[GUARD..GUARD + self.length]
    }

    /// Pointer and length; no words may come without a pointer.
    fn pointer(&mut self, nulls: bool) -> (*mut u64, usize) {
        match (self.length, nulls) {
            (0, true) => (std::ptr::null_mut(), 0),
            (length, _) => (self.all_mut().as_mut_ptr(), length),
        }
    }

    fn copy(&mut self, other: &Lent) {
        self.words.clone_from(&other.words);
        self.length = other.length;
    }

    /// The first word, guards too, that is another one in `other`.
    fn difference(&self, name: &str, other: &Lent) -> Option<String> {
        let (mine, its) = (&self.words, &other.words);
        let at = (mine != its).then(|| (0..mine.len()).find(|i| mine[*i] != its[*i])).flatten()?;
        let place = at as i64 - GUARD as i64;
        Some(format!(
            "word {place} of the {name}, which has {}: {} by the row, {} expected",
            self.length, mine[at], its[at]
        ))
    }
}

/// What a row is lent.
#[derive(Default)]
pub struct Row {
    pub store: Lent,
    pub script: Lent,
    pub answers: Lent,
    pub list: Lent,
    /// Whether what has no words comes without a pointer.
    pub nulls: bool,
}

/// What the single calls of a row gave.
pub struct Made {
    pub answer: u64,
    /// The calls with their answers; none in a refused row.
    pub calls: Vec<(Call, u64)>,
    /// Why the row is refused: no state, a record that is no call, more calls than answers.
    pub reasons: [bool; 3],
}

impl Row {
    pub fn copy(&mut self, other: &Row) {
        self.store.copy(&other.store);
        self.script.copy(&other.script);
        self.answers.copy(&other.answers);
        self.list.copy(&other.list);
        self.nulls = other.nulls;
    }

    /// The row by `broker_calls`: its answer.
    pub fn make(&mut self) -> u64 {
        let calls = c_side::calls().expect("asked for before");
        let (store, n) = self.store.pointer(self.nulls);
        let (script, s) = self.script.pointer(self.nulls);
        let (answers, a) = self.answers.pointer(self.nulls);
        let (list, m) = self.list.pointer(self.nulls);
        // Each pointer is to a vector that outlives the call, with a length within it.
        unsafe { calls(store, n, script, s, answers, a, list, m) }
    }

    /// The calls one by one, if the row is not to be refused; every push has the rest of the list.
    pub fn make_singly(&mut self) -> Made {
        let (asked, whole) = read(self.script.all());
        let no_state = perform(self.store.all_mut(), &CHECK, &mut []) == 1;
        let reasons = [no_state, !whole, asked.len() > self.answers.length];
        let count = 256 * asked.len() as u64;
        let answer = match reasons {
            [true, ..] => 1,
            [_, true, _] => 18,
            [_, _, true] => count + 64,
            _ => count,
        };
        let refused = reasons.contains(&true);
        let calls = if refused { Vec::new() } else { self.make_each(asked) };
        Made { answer, calls, reasons }
    }

    fn make_each(&mut self, asked: Vec<Asked>) -> Vec<(Call, u64)> {
        let (mut used, mut made) = (0, Vec::new());
        for (i, Asked { call, mut list }) in asked.into_iter().enumerate() {
            let push = call == Call::Push;
            let lent = if push { &mut self.list.all_mut()[used..] } else { &mut list[..] };
            let answer = perform(self.store.all_mut(), &call, lent);
            if push && answer % 256 == 0 {
                used += DISPATCH * (answer / 256) as usize;
            }
            self.answers.all_mut()[i] = answer;
            made.push((call, answer));
        }
        made
    }

    /// The first word that is another one in `other`.
    pub fn difference(&self, other: &Row) -> Option<String> {
        let differ = |name, mine: &Lent, its| mine.difference(name, its);
        differ("script", &self.script, &other.script)
            .or_else(|| differ("answers", &self.answers, &other.answers))
            .or_else(|| differ("list", &self.list, &other.list))
            .or_else(|| differ("store", &self.store, &other.store))
    }

    /// What was lent, for a message.
    pub fn text(&self) -> String {
        let header = self.store.all().get(1..4).map_or_else(String::new, |words| {
            format!(" (E {}, leak {}, noop {})", words[0], words[1], words[2])
        });
        format!(
            "lent: store of {} words{header}, script {}, answers {}, list {}{}\nthe script:{}",
            self.store.length,
            self.script.length,
            self.answers.length,
            self.list.length,
            if self.nulls { ", NULL for no words" } else { "" },
            text(self.script.all())
        )
    }
}
