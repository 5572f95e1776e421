//! Zeros at detectors: where the input came from, whether it rested at zero, and where it went from there.

use crate::coverage::add_each;
use crate::lines::Line;
use second::{Kind, Model};

/// How often each was seen, by the side before (none, negative, positive), whether the input was zero at more than one
/// tick, and the side after (negative, positive).
#[derive(Default)]
pub struct Zeros([u64; 12]);

const BEFORE: [&str; 3] = ["unset", "from below", "from above"];
const RESTED: [&str; 2] = ["touched", "rested at"];
const BEHIND: [&str; 2] = ["then below", "then above"];

/// What a detector has read so far: the side of the last value other than zero, and the first and last tick at which
/// the input was zero since.
#[derive(Default)]
struct Input {
    before: usize,
    zeros: Option<[u64; 2]>,
}

impl Zeros {
    /// Counts what the detectors of a table read at its start point and at the points that were printed.
    pub fn count(&mut self, model: &Model, points: &[Line]) {
        for detector in model.parts.iter().filter(|part| matches!(part.kind, Kind::Detector { .. })) {
            let mut input = Input::default();
            for point in points {
                self.read(&mut input, point.t, point.input(detector.inputs[0]));
            }
        }
    }

    /// A detector reads a value, or nothing, at the tick `t`.
    fn read(&mut self, input: &mut Input, t: u64, value: Option<i64>) {
        let Some(value) = value else { return };
        if value == 0 {
            let first = input.zeros.map_or(t, |[first, _]| first);
            input.zeros = Some([first, t]);
            return;
        }
        let behind = usize::from(value > 0);
        if let Some([first, last]) = input.zeros {
            self.0[4 * input.before + 2 * usize::from(first < last) + behind] += 1;
        }
        *input = Input { before: 1 + behind, zeros: None };
    }

    /// Adds what another thread counted.
    pub fn add(&mut self, other: &Zeros) {
        add_each(&mut self.0, &other.0);
    }

    /// Each with its name.
    pub fn named(&self) -> impl Iterator<Item = (String, u64)> + '_ {
        let name = |at: usize| format!("zero {}, {}, {}", RESTED[at / 2 % 2], BEFORE[at / 4], BEHIND[at % 2]);
        self.0.iter().enumerate().map(move |(at, &count)| (name(at), count))
    }
}
