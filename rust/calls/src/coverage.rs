//! What the calls reached.

use crate::alter::{Then, BILLION, LAST_TICK, SORTS};
use crate::malformed::MALFORMED;
use crate::words::*;
use std::collections::BTreeMap;

#[derive(Default)]
pub struct Coverage {
    pub cases: u64,
    pub loads: u64,
    pub advances: u64,
    /// By number.
    pub load_numbers: [u64; 32],
    numbers: [u64; 32],
    preview_numbers: [u64; 32],
    save_numbers: [u64; 32],
    sheet_numbers: [u64; 32],
    /// Answers of 24 for models that the second implementation's types cannot say.
    by_rule: u64,
    /// By name: altered models that are sound, and that are not.
    sorts: BTreeMap<&'static str, [u64; 2]>,
    /// What else was tried, by name.
    others: BTreeMap<&'static str, u64>,
    kinds: [u64; KINDS],
    most_rounds: u64,
    most_revisions: u64,
}

/// A name of wanted steps, and whether one has it.
type Wanted = (&'static str, fn(u64) -> bool);

/// Wanted steps, by name.
const WANTED: [Wanted; 10] = [
    ("w 0", |w| w == 0),
    ("w 1", |w| w == 1),
    ("w to 10^9", |w| w > 1 && w < BILLION),
    ("w 10^9", |w| w == BILLION),
    ("w 10^9+1", |w| w == BILLION + 1),
    ("w to 2^32", |w| w > BILLION + 1 && w < 1 << 32),
    ("w 2^32", |w| w == 1 << 32),
    ("w above 2^32", |w| w > 1 << 32 && w != 1 << 63 && w != u64::MAX),
    ("w 2^63", |w| w == 1 << 63),
    ("w 2^64-1", |w| w == u64::MAX),
];

/// What else has to be tried.
const OTHERS: [&str; 70] = [
    "load through the binding",
    "refused load through the binding",
    "load into too few words",
    "refused load into too few words",
    "load with any room for its answer",
    "refused load with any room for its answer",
    "advance through the binding",
    "refused advance through the binding",
    "advance of too few words",
    "advance into too few words",
    "barred advance into too few words",
    "advance with any room for its answer",
    "refused advance with any room for its answer",
    "preview through the binding",
    "refused preview through the binding",
    "preview of too few words",
    "preview into too few words",
    "barred preview into too few words",
    "preview with any room for its answer",
    "refused preview with any room for its answer",
    "save into no room",
    "save into room short by a byte",
    "save into exact room",
    "save into longer room",
    "barred save into no room",
    "barred save into a byte",
    "barred save into some room",
    "barred save into room for any table",
    "save through the binding",
    "save of too few words",
    "save with any room for its answer",
    "refused save with any room for its answer",
    "a fresh model's table loaded again",
    "any model's table loaded again",
    "sheet into no room",
    "sheet into room short by a byte",
    "sheet into exact room",
    "sheet into longer room",
    "sheet of a preview",
    "sheet of a model that is not sound",
    "sheet of a committed answer",
    "sheet of a committed answer and a part that there is not",
    "sheet of a refused answer",
    "sheet of a refused answer and a part that there is not",
    "sheet of a committed answer with a number too wide",
    "sheet of a committed answer with a field full",
    "sheet of an altered answer, committed",
    "sheet of a refused answer with a number too wide",
    "sheet of an altered answer, refused",
    "sheet through the binding",
    "sheet of too few words",
    "sheet with any room for its answer",
    "refused sheet with any room for its answer",
    "sheet of too few words of an answer",
    "words behind all places",
    "no word behind the model",
    "a word behind an absent signal",
    "committed up to the last tick",
    "committed above 9 x 10^17",
    "committed up to the last microstep",
    "22 above 9 x 10^17",
    "23 by one tick",
    "23 at the last tick",
    "23 at the last point",
    "21 above 9 x 10^17",
    "20 at the last point",
    "a clapper's speed changed",
    "a clapper's speed taken to an end, its position not",
    "a clapper's position taken to an end",
    "a clapper moved without an input",
];

impl Coverage {
    /// Counts something by its name.
    pub fn count(&mut self, name: &'static str) {
        *self.others.entry(name).or_default() += 1;
    }

    /// Counts an alteration of a sort, by whether the model was sound after it.
    pub fn sort(&mut self, name: &'static str, sound: bool) {
        self.sorts.entry(name).or_default()[usize::from(!sound)] += 1;
    }

    /// Counts a preview that agreed, by its number.
    pub fn preview(&mut self, number: u64) {
        self.preview_numbers[number as usize] += 1;
    }

    /// Counts a save that agreed, by its number.
    pub fn save(&mut self, number: u64) {
        self.save_numbers[number as usize] += 1;
    }

    /// Counts a sheet that agreed, by its number.
    pub fn sheet(&mut self, number: u64) {
        self.sheet_numbers[number as usize] += 1;
    }

    /// Counts the kinds of a model that was loaded and played.
    pub fn played(&mut self, words: &Words) {
        for number in 0..words.count() {
            self.kinds[words.part(number)[KIND] as usize] += 1;
        }
    }

    /// Counts an answer that agreed.
    pub fn answer(&mut self, given: &Words, w: u64, counts: &[u64; 5], after: &Words, by_rule: bool) {
        let number = counts[0];
        self.numbers[number as usize] += 1;
        self.by_rule += u64::from(by_rule);
        for (name, is_one) in WANTED {
            if is_one(w) {
                self.count(name);
            }
        }
        self.most_rounds = self.most_rounds.max(counts[2]);
        self.most_revisions = self.most_revisions.max(counts[3]);
        let (t, n) = (given.0[T], given.0[N]);
        let far = t > 900_000_000_000_000_000;
        let mut must = |is_one: bool, name| {
            if is_one {
                self.count(name);
            }
        };
        must(number == 0 && counts[1] > 0 && after.0[T] == LAST_TICK, "committed up to the last tick");
        must(number == 0 && far, "committed above 9 x 10^17");
        must(number == 0 && after.0[N] == 999, "committed up to the last microstep");
        must(number == 22 && far, "22 above 9 x 10^17");
        must(number == 23 && w == LAST_TICK - t + 1, "23 by one tick");
        must(number == 23 && t == LAST_TICK, "23 at the last tick");
        must(number == 23 && t == LAST_TICK && n == 999, "23 at the last point");
        must(number == 21 && far, "21 above 9 x 10^17");
        must(number == 20 && t == LAST_TICK && n == 999, "20 at the last point");
        if number == 0 {
            self.clappers(given, after);
        }
    }

    /// Counts what a committed step did to the clappers.
    fn clappers(&mut self, given: &Words, after: &Words) {
        let is_end = |word: u64| (word as i64).unsigned_abs() == BILLION;
        for number in 0..after.count() {
            let (old, new) = (given.part(number), after.part(number));
            if new[KIND] != 12 {
                continue;
            }
            let mut must = |is_one: bool, name| {
                if is_one {
                    self.count(name);
                }
            };
            let ended = |at: usize| is_end(new[at]) && !is_end(old[at]);
            let input = new[PORT].checked_sub(1).is_some_and(|source| given.part(source as usize)[OUTPUT] == 1);
            must(new[SPEED] != old[SPEED], "a clapper's speed changed");
            must(ended(SPEED) && !is_end(new[HELD]), "a clapper's speed taken to an end, its position not");
            must(ended(HELD), "a clapper's position taken to an end");
            must(!input && new[HELD] != old[HELD], "a clapper moved without an input");
        }
    }

    /// What was not reached and should have been.
    pub fn missing(&self) -> Vec<String> {
        let mut missing = Vec::new();
        let mut must = |reached: bool, what: String| {
            if !reached {
                missing.push(what);
            }
        };
        for number in [0, 1, 2, 3, 5, 6, 7, 8, 9, 10, 11, 12] {
            must(self.load_numbers[number] > 0, format!("number {number} of a load"));
        }
        for number in [0, 20, 21, 22, 23, 24] {
            must(self.numbers[number] > 0, format!("number {number} of an advance"));
        }
        for number in [0, 20, 21, 22, 23, 24, 25] {
            must(self.preview_numbers[number] > 0, format!("number {number} of a preview"));
        }
        for number in [0, 24, 25] {
            must(self.save_numbers[number] > 0, format!("number {number} of a save"));
        }
        for number in [0, 24, 25, 26] {
            must(self.sheet_numbers[number] > 0, format!("number {number} of a sheet"));
        }
        must(self.by_rule > 0, "models that the second implementation cannot say".to_string());
        for (name, then, _) in SORTS.iter().chain(MALFORMED) {
            let [sound, unsound] = self.sorts.get(name).copied().unwrap_or_default();
            must(*then == Then::Unsound || sound > 0, format!("{name}, sound"));
            must(*then == Then::Sound || unsound > 0, format!("{name}, unsound"));
        }
        for name in OTHERS.iter().chain(WANTED.iter().map(|(name, _)| name)) {
            must(self.others.contains_key(name), name.to_string());
        }
        for (kind, &parts) in self.kinds.iter().enumerate() {
            must(parts > 0, format!("kind {kind}"));
        }
        missing
    }

    /// How many calls of each sort agreed, by number.
    pub fn calls(&self) -> String {
        let all = |counts: &[u64]| counts.iter().sum::<u64>();
        format!(
            "{} loads{}; {} advances{}, {} of 24 by rule; {} previews{}; {} saves{}; {} sheets{}",
            self.loads,
            numbers(&self.load_numbers),
            self.advances,
            numbers(&self.numbers),
            self.by_rule,
            all(&self.preview_numbers),
            numbers(&self.preview_numbers),
            all(&self.save_numbers),
            numbers(&self.save_numbers),
            all(&self.sheet_numbers),
            numbers(&self.sheet_numbers),
        )
    }

    /// One line.
    pub fn figures(&self) -> String {
        let sorts: Vec<String> = SORTS
            .iter()
            .chain(MALFORMED)
            .map(|(name, then, _)| {
                let [sound, unsound] = self.sorts.get(name).copied().unwrap_or_default();
                match then {
                    Then::Sound => format!("{name} {sound}"),
                    Then::Unsound => format!("{name} {unsound}"),
                    Then::Either => format!("{name} {sound}+{unsound}"),
                }
            })
            .collect();
        let others: Vec<String> = self.others.iter().map(|(name, count)| format!("{name} {count}")).collect();
        format!(
            "{}; at most {} rounds and {} revisions; altered (sound+unsound where both can be): {}; {}; kinds{}",
            self.calls(),
            self.most_rounds,
            self.most_revisions,
            sorts.join(", "),
            others.join(", "),
            numbers(&self.kinds),
        )
    }
}

/// The counts that are not 0, each by its number.
pub fn numbers(counts: &[u64]) -> String {
    let reached = counts.iter().enumerate().filter(|(_, &count)| count > 0);
    reached.map(|(number, count)| format!(" {number}:{count}")).collect()
}
