//! What the cases reached.

use crate::clappers::Clappers;
use crate::commands::Commands;
use crate::ends::Ends;
use crate::last::Last;
use crate::lines::Played;
use crate::saves::Saves;
use crate::scores::Scores;
use crate::sheets::Sheets;
use crate::zeros::Zeros;
use cases::draft::KINDS;
use second::load;

/// Refusals that a stream of at most 65,536 bytes can reach. 23 needs a tick near 10^18, where the 13,107 steps of
/// 10^9 that fit such a stream do not lead, and 24 a model that no load gives.
pub const REACHABLE: [u8; 14] = [1, 2, 3, 5, 6, 7, 8, 9, 10, 11, 12, 20, 21, 22];

#[derive(Default)]
pub struct Coverage {
    pub cases: u64,
    pub accepted: u64,
    pub lines: u64,
    /// By number: of loads and of advances.
    refusals: [u64; 32],
    /// By number: of a score's commands.
    score_refusals: [u64; 32],
    accepted_kinds: [u64; KINDS],
    refused_kinds: [u64; KINDS],
    most_rounds: u64,
    most_revisions: u64,
    /// Steps of 0 and longer ones.
    steps: [u64; 2],
    zeros: Zeros,
    clappers: Clappers,
    ends: Ends,
    last: Last,
    commands: Commands,
    scores: Scores,
    pub saves: Saves,
    pub sheets: Sheets,
}

impl Coverage {
    /// Counts a case and what it was answered.
    pub fn count(&mut self, stream: &[u8], output: &[u8]) {
        self.cases += 1;
        let output = String::from_utf8_lossy(output);
        let loaded = load(stream);
        self.commands.count(stream, &loaded);
        let accepted = match &loaded {
            Ok(accepted) => {
                self.accepted += 1;
                count_kinds(&mut self.accepted_kinds, &stream[..accepted.end]);
                let played = Played::read(accepted, stream, &output);
                self.zeros.count(&accepted.model, &played.points);
                self.clappers.count(&accepted.model, &played.points);
                self.ends.count(&accepted.model, &played.points);
                self.last.count(&accepted.model, &played);
                self.scores.count(&played, &stream[accepted.end..], &output);
                true
            }
            Err(refusal) => {
                count_kinds(&mut self.refused_kinds, &stream[..refusal.position]);
                false
            }
        };
        for line in output.lines() {
            self.lines += 1;
            let words: Vec<&str> = line.split(' ').collect();
            let number = |at: usize| words.get(at).and_then(|word| word.parse::<u64>().ok()).unwrap_or(0);
            if words[0] == "refused" {
                let refusals = if accepted && words.len() > 2 { &mut self.score_refusals } else { &mut self.refusals };
                refusals[number(1) as usize % 32] += 1;
            } else {
                self.steps[usize::from(number(2) > 0)] += 1;
                self.most_rounds = self.most_rounds.max(number(3));
                self.most_revisions = self.most_revisions.max(number(4));
            }
        }
    }

    /// Adds what another thread counted.
    pub fn add(&mut self, other: &Coverage) {
        self.cases += other.cases;
        self.accepted += other.accepted;
        self.lines += other.lines;
        add_each(&mut self.refusals, &other.refusals);
        add_each(&mut self.score_refusals, &other.score_refusals);
        add_each(&mut self.accepted_kinds, &other.accepted_kinds);
        add_each(&mut self.refused_kinds, &other.refused_kinds);
        add_each(&mut self.steps, &other.steps);
        self.zeros.add(&other.zeros);
        self.clappers.add(&other.clappers);
        self.ends.add(&other.ends);
        self.last.add(&other.last);
        self.commands.add(&other.commands);
        self.scores.add(&other.scores);
        self.saves.add(&other.saves);
        self.sheets.add(&other.sheets);
        self.most_rounds = self.most_rounds.max(other.most_rounds);
        self.most_revisions = self.most_revisions.max(other.most_revisions);
    }

    /// How often each was seen that is counted by name.
    fn reached(&self) -> Vec<(String, u64)> {
        let mut all: Vec<(String, u64)> = Vec::new();
        all.extend(self.zeros.named().map(|(name, count)| (format!("{name}, at a detector"), count)));
        all.extend(self.clappers.named().map(|(name, count)| (format!("a clapper's {name}"), count)));
        all.extend(self.saves.named().map(|(name, count)| (format!("a table {name}"), count)));
        all.extend(self.sheets.named().map(|(name, count)| (format!("a sheet's {name}"), count)));
        all.extend(self.ends.named().into_iter().map(|(name, count)| (format!("a {name}"), count)));
        all.extend(self.last.named().map(|(name, count)| (format!("as the last of 32 parts a {name}"), count)));
        all.extend(self.commands.named());
        all.extend(self.scores.named().map(|(name, count)| (format!("a score's {name}"), count)));
        all
    }

    /// What was not reached and should have been.
    pub fn missing(&self) -> Vec<String> {
        let mut missing = Vec::new();
        let mut must = |reached: bool, what: String| {
            if !reached {
                missing.push(what);
            }
        };
        for number in REACHABLE {
            must(self.refusals[usize::from(number)] > 0, format!("refusal {number}"));
        }
        for number in 1..=3 {
            must(self.score_refusals[number] > 0, format!("refusal {number} of a score"));
        }
        for kind in 0..KINDS {
            must(self.accepted_kinds[kind] > 0, format!("kind {kind} in an accepted table"));
            must(self.refused_kinds[kind] > 0, format!("kind {kind} in a refused table"));
        }
        must(self.steps[0] > 0 && self.steps[1] > 0, "steps of 0 and longer ones".to_string());
        for (name, count) in self.reached() {
            must(count > 0, name);
        }
        let astray = self.clappers.astray();
        must(astray == 0, format!("only positions of clappers that the lines before lead to ({astray} are others)"));
        let astray = self.ends.astray();
        must(astray == 0, format!("only values that the lines lead to ({astray} are others)"));
        let astray = self.commands.astray();
        must(astray == 0, format!("only refusals of a command's first fault ({astray} are others)"));
        must(
            self.most_revisions == 29,
            format!("29 revisions, and no more (at most {} were made)", self.most_revisions),
        );
        must(self.most_rounds > 31, format!("more than 31 rounds (at most {} were made)", self.most_rounds));
        missing
    }

    /// One line.
    pub fn figures(&self) -> String {
        let numbers = |counts: &[u64]| -> String {
            let reached = counts.iter().enumerate().filter(|(_, &count)| count > 0);
            reached.map(|(number, count)| format!(" {number}:{count}")).collect()
        };
        let zeros: Vec<String> = self.zeros.named().map(|(name, count)| format!("{name} {count}")).collect();
        let clappers: Vec<String> = self.clappers.named().map(|(name, count)| format!("{name} {count}")).collect();
        let saves: Vec<String> = self.saves.named().map(|(name, count)| format!("{name} {count}")).collect();
        let sheets: Vec<String> = self.sheets.named().map(|(name, count)| format!("{name} {count}")).collect();
        let scores: Vec<String> = self.scores.named().map(|(name, count)| format!("{name} {count}")).collect();
        format!(
            "{} tables accepted, {} refused; {} lines; refusals{}; in scores{}; kinds accepted{}; kinds refused{}; \
             steps of 0 {}, longer {}; at most {} rounds and {} revisions; at detectors {}; of clappers {}; \
             of tables {}; of sheets {}; of scores {}; {} at the ends of the values; {} at the last of 32 parts; \
             {} of operands and faults",
            self.accepted,
            self.cases - self.accepted,
            self.lines,
            numbers(&self.refusals),
            numbers(&self.score_refusals),
            numbers(&self.accepted_kinds),
            numbers(&self.refused_kinds),
            self.steps[0],
            self.steps[1],
            self.most_rounds,
            self.most_revisions,
            zeros.join(", "),
            clappers.join(", "),
            saves.join(", "),
            sheets.join(", "),
            scores.join(", "),
            sorts(self.ends.named()),
            sorts(self.last.named()),
            sorts(self.commands.named()),
        )
    }
}

/// How many sorts there are, and how often the rarest was seen.
fn sorts(named: impl IntoIterator<Item = (String, u64)>) -> String {
    let counts: Vec<u64> = named.into_iter().map(|(_, count)| count).collect();
    format!("{} sorts, each {} times or more,", counts.len(), counts.iter().min().unwrap_or(&0))
}

/// Adds each count to its own.
pub fn add_each(to: &mut [u64], from: &[u64]) {
    for (to, from) in to.iter_mut().zip(from) {
        *to += from;
    }
}

/// Counts the parts of whole commands.
fn count_kinds(counts: &mut [u64; KINDS], mut commands: &[u8]) {
    while let Some(&code) = commands.first() {
        if code == 2 {
            if let Some(count) = commands.get(1).and_then(|&kind| counts.get_mut(usize::from(kind))) {
                *count += 1;
            }
        }
        let width = match code {
            1 => 2,
            2 => 15,
            3 => 5,
            4 => 4,
            _ => 1,
        };
        commands = commands.get(width..).unwrap_or(&[]);
    }
}
