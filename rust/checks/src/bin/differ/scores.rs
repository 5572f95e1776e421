//! What the commands of scores came to: wanted steps at the ends of their range and one beyond, and refusals where
//! two numbers could be given.

use crate::coverage::add_each;
use crate::lines::Played;

/// How often each was seen.
#[derive(Default)]
pub struct Scores([u64; NAMES.len()]);

const NAMES: [&str; 10] = [
    "wanted step of 1, made",
    "wanted step of 10^9, made whole",
    "wanted step of 0, refused 20",
    "wanted step of 10^9 + 1, refused 20",
    "wanted step of 2^32 - 1, refused 20",
    "20 where 21 is answered otherwise",
    "20 where 22 is answered otherwise",
    "22 at the last microstep",
    "step made where 22 was answered before",
    "table's command that is cut, refused 3",
];

const BILLION: u32 = 1_000_000_000;

impl Scores {
    /// Counts what the commands of a score came to; `score` are its bytes, which the last line may refuse.
    pub fn count(&mut self, played: &Played, score: &[u8], lines: &str) {
        let mut before = None;
        for call in &played.calls {
            let step = played.line(call).map(|line| line.step);
            let beyond = call.refused == Some(20);
            let last = played.points[call.at].n == 999;
            let was = |number: u8| before == Some(Some(number));
            self.add_those([
                call.wanted == 1 && step == Some(1),
                call.wanted == BILLION && step == Some(BILLION.into()),
                call.wanted == 0 && beyond,
                call.wanted == BILLION + 1 && beyond,
                call.wanted == u32::MAX && beyond,
                beyond && was(21),
                beyond && was(22),
                last && call.refused == Some(22),
                was(22) && step.is_some(),
                false,
            ]);
            before = Some(call.refused);
        }
        let rest = score.get(5 * played.calls.len()..).unwrap_or(&[]);
        let is_cut = matches!(rest, [1] | [2..=4, ..]) && rest.len() < 4;
        let refused = lines.lines().last().is_some_and(|line| line.starts_with("refused 3 at "));
        self.0[NAMES.len() - 1] += u64::from(is_cut && refused);
    }

    /// Counts each that is one.
    fn add_those(&mut self, those: [bool; NAMES.len()]) {
        add_each(&mut self.0, &those.map(u64::from));
    }

    /// Adds what another thread counted.
    pub fn add(&mut self, other: &Scores) {
        add_each(&mut self.0, &other.0);
    }

    /// Each with its name.
    pub fn named(&self) -> impl Iterator<Item = (&'static str, u64)> + '_ {
        NAMES.into_iter().zip(self.0)
    }
}
