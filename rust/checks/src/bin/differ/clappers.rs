//! What clappers came to: speeds and positions that had to be clamped, inputs at steps that moved them, dropped trials.

use crate::coverage::add_each;
use crate::lines::Line;
use second::{Kind, Model, Part};

/// How often each was seen.
#[derive(Default)]
pub struct Clappers {
    /// Steps at which the speed, the position or both were beyond the values before they were clamped, above and below.
    clamped: [u64; 6],
    /// Steps that moved the position, by the input and whether the ratio is above 1.
    inputs: [u64; 10],
    /// Steps that moved the position, after a trial was dropped.
    revised: u64,
    /// Steps to another position than the lines before lead to.
    astray: u64,
}

const CLAMPED: [&str; 3] = ["speed alone", "position alone", "speed and position"];
const ENDS: [&str; 2] = ["10^9", "-10^9"];
const INPUTS: [&str; 5] = ["unwired", "absent", "negative", "zero", "positive"];
const RATIOS: [&str; 2] = ["ratio 1", "a higher ratio"];

impl Clappers {
    /// Counts what the clappers of a table did from its start point on, by the points that were printed.
    pub fn count(&mut self, model: &Model, points: &[Line]) {
        for (number, part) in model.parts.iter().enumerate() {
            if let Kind::Clapper { b, .. } = part.kind {
                let mut speed = b.into();
                for step in points.windows(2) {
                    speed = self.step(part, number, speed, &step[0], &step[1]);
                }
            }
        }
    }

    /// Counts a clapper's step, before which it has this speed; gives the one that it has then.
    fn step(&mut self, part: &Part, number: usize, speed: i64, before: &Line, after: &Line) -> i64 {
        let input = part.inputs[0].map(|source| before.outputs[usize::from(source)]);
        let position = before.outputs[number].unwrap_or(0);
        let swing = Swing::of(part, number, speed, before, after);
        let ((speed, speed_end), (moved, position_end)) = (clamped(swing.speed), clamped(swing.position));
        self.astray += u64::from(after.outputs[number] != Some(moved));
        if let Some(end) = speed_end.or(position_end) {
            let which = if position_end.is_none() { 0 } else { 1 + usize::from(speed_end.is_some()) };
            self.clamped[2 * which + end] += 1;
        }
        if moved != position {
            self.revised += u64::from(after.revisions > 0);
            let input = match input {
                None => 0,
                Some(None) => 1,
                Some(Some(x)) => (3 + x.signum()) as usize,
            };
            self.inputs[2 * input + usize::from(part.ratio > 1)] += 1;
        }
        speed
    }

    /// Adds what another thread counted.
    pub fn add(&mut self, other: &Clappers) {
        add_each(&mut self.clamped, &other.clamped);
        add_each(&mut self.inputs, &other.inputs);
        self.revised += other.revised;
        self.astray += other.astray;
    }

    /// How often a position was printed that the lines before do not lead to.
    pub fn astray(&self) -> u64 {
        self.astray
    }

    /// Each with its name.
    pub fn named(&self) -> impl Iterator<Item = (String, u64)> + '_ {
        let clamped = |at: usize| format!("{} clamped at {}", CLAMPED[at / 2], ENDS[at % 2]);
        let input = |at: usize| format!("move at {} with input {}", RATIOS[at % 2], INPUTS[at / 2]);
        let clamped = self.clamped.iter().enumerate().map(move |(at, &count)| (clamped(at), count));
        let inputs = self.inputs.iter().enumerate().map(move |(at, &count)| (input(at), count));
        clamped.chain(inputs).chain([("move after a dropped trial".to_string(), self.revised)])
    }
}

/// The speed and the position that a step leads to, before each is clamped.
pub struct Swing {
    pub speed: i64,
    pub position: i64,
}

impl Swing {
    /// That of a clapper with this number and, before the step, this speed.
    pub fn of(part: &Part, number: usize, speed: i64, before: &Line, after: &Line) -> Swing {
        let d = local_ticks(part, before, after);
        let speed = speed + before.input(part.inputs[0]).unwrap_or(0) * d;
        let position = before.outputs[number].unwrap_or(0) + clamped(speed).0 * d;
        Swing { speed, position }
    }
}

/// By how much a part's local count grows from a point to the next.
pub fn local_ticks(part: &Part, before: &Line, after: &Line) -> i64 {
    (after.t / part.ratio - before.t / part.ratio) as i64
}

/// The value next to a number, and which end of the values that is where the number lies beyond it.
pub fn clamped(number: i64) -> (i64, Option<usize>) {
    let billion = 1_000_000_000;
    match number {
        above if above > billion => (billion, Some(0)),
        below if below < -billion => (-billion, Some(1)),
        value => (value, None),
    }
}
