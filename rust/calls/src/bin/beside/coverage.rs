//! What was seen: streams, answers, and how often each refusal was told.
use dozhumek::Refusal;
use std::collections::BTreeMap;

/// The refusals that have to be reached, by their numbers.
const REACHED: [u64; 15] = [1, 2, 3, 5, 6, 7, 8, 9, 10, 11, 12, 20, 21, 22, 23];

/// No message is longer, in characters.
const LONGEST: usize = 2000;

#[derive(Default)]
pub struct Coverage {
    pub streams: u64,
    pub accepted: u64,
    /// Committed steps of 0 and above it, and those of the latter that were revised or not the wanted ones.
    pub none: u64,
    pub steps: u64,
    pub revised: u64,
    pub shortened: u64,
    /// Searches that found no step: by one part alone, by two, and by more.
    pub barred: [u64; 3],
    refused: BTreeMap<u64, u64>,
    longest: usize,
}

impl Coverage {
    /// Counts a refusal and its message, which has to be a line, and not the meaning that every refusal of the number
    /// has.
    pub fn told(&mut self, refusal: Refusal, message: &str) -> Result<(), String> {
        let number = refusal.number();
        *self.refused.entry(number).or_default() += 1;
        let length = message.chars().count();
        self.longest = self.longest.max(length);
        if message.is_empty() || message.chars().any(char::is_control) || length > LONGEST {
            return Err(format!("refusal {number} is told by {message:?}"));
        }
        if message == refusal.meaning() {
            return Err(format!("refusal {number} is told by its meaning alone"));
        }
        Ok(())
    }

    /// What was not reached.
    pub fn missing(&self) -> Vec<String> {
        let refusals = REACHED.iter().filter(|number| !self.refused.contains_key(number));
        let mut missing: Vec<String> = refusals.map(|number| format!("refusal {number}")).collect();
        let counts = [
            (self.accepted, "an accepted stream"),
            (self.none, "a step of 0"),
            (self.revised, "a revised step"),
            (self.shortened, "a step below the last ceiling"),
            (self.barred[0], "a part that accepts none"),
            (self.barred[1], "two parts that do not meet"),
            (self.barred[2], "parts that meet by two but not all"),
        ];
        missing.extend(counts.iter().filter(|(count, _)| *count == 0).map(|(_, what)| what.to_string()));
        missing
    }

    /// One line.
    pub fn figures(&self) -> String {
        let Coverage { streams, accepted, none, steps, revised, shortened, longest, .. } = self;
        let refused: Vec<String> = self.refused.iter().map(|(number, count)| format!("{number} {count}x")).collect();
        let [alone, two, more] = self.barred;
        format!(
            "{accepted} of {streams} streams accepted; {none} steps of 0 and {steps} above it, {revised} revised, \
             {shortened} below the last ceiling; no step for one part {alone}x, for two {two}x, for more {more}x; \
             refused {}; the longest message has {longest} characters",
            refused.join(", ")
        )
    }
}
