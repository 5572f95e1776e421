//! Numbers at the ends of the values: products, sums, held numbers, speeds and positions, before they are clamped.
//! Each is worked out from the lines, and what is shown has to be the value next to it.

use crate::clappers::{clamped, local_ticks, Swing};
use crate::coverage::add_each;
use crate::lines::Line;
use second::{Kind, Model, Part};

/// How often each was seen.
#[derive(Default)]
pub struct Ends {
    /// Results, by what gave them and where they lie.
    results: [[u64; 6]; 7],
    /// Products and sums of two numbers that are both at an end.
    pairs: [[u64; 4]; 2],
    /// Steps of a number from one end to the other, or beyond it, by what moved.
    across: [[u64; 2]; 7],
    /// Values shown that the lines do not lead to.
    astray: u64,
}

// What gives a result.
const PRODUCT: usize = 0;
const SUM: usize = 1;
const INTEGRATOR: usize = 2;
const RESET: usize = 3;
const DRIVE: usize = 4;
const SPEED: usize = 5;
const POSITION: usize = 6;

const RESULTS: [&str; 7] = [
    "product",
    "sum",
    "integrator's number",
    "reset integrator's number",
    "drive's number",
    "clapper's speed",
    "clapper's position",
];
const PLACES: [&str; 6] = ["below -10^9 - 1", "of -10^9 - 1", "of -10^9", "of 10^9", "of 10^9 + 1", "above 10^9 + 1"];
const PAIRS: [&str; 4] = ["10^9 and 10^9", "10^9 and -10^9", "-10^9 and 10^9", "-10^9 and -10^9"];
const ACROSS: [&str; 2] = ["from 10^9 to -10^9", "from -10^9 to 10^9"];

const BILLION: i64 = 1_000_000_000;

impl Ends {
    /// Counts what the parts of a table came to, by the points that were printed.
    pub fn count(&mut self, model: &Model, points: &[Line]) {
        for (number, part) in model.parts.iter().enumerate() {
            match part.kind {
                Kind::Gain { a } => self.products(a.into(), part, number, &points[1..]),
                Kind::Adder => self.sums(part, number, &points[1..]),
                Kind::Integrator { .. } => self.held(INTEGRATOR, part, number, points),
                Kind::ResetIntegrator { .. } => self.held(RESET, part, number, points),
                Kind::Drive { .. } => self.held(DRIVE, part, number, points),
                Kind::Clapper { b, .. } => self.clapper(b.into(), part, number, points),
                _ => {}
            }
        }
    }

    /// Counts the products of a gain.
    fn products(&mut self, a: i64, part: &Part, number: usize, points: &[Line]) {
        for point in points {
            let Some(x) = point.input(part.inputs[0]) else { continue };
            self.result(PRODUCT, a * x, point.outputs[number]);
            self.pair(PRODUCT, [a, x]);
        }
    }

    /// Counts the sums of an adder.
    fn sums(&mut self, part: &Part, number: usize, points: &[Line]) {
        for point in points {
            let [Some(x), Some(y)] = part.inputs.map(|source| point.input(source)) else { continue };
            self.result(SUM, x + y, point.outputs[number]);
            self.pair(SUM, [x, y]);
        }
    }

    /// Counts the numbers that a part integrates, at the steps that move them.
    fn held(&mut self, what: usize, part: &Part, number: usize, points: &[Line]) {
        for step in points.windows(2) {
            let (before, after) = (&step[0], &step[1]);
            let reset = what == RESET && after.input(part.inputs[1]).is_some();
            let moved = before.input(part.inputs[0]).unwrap_or(0) * local_ticks(part, before, after);
            if moved == 0 || reset {
                continue;
            }
            let held = before.outputs[number].unwrap_or(0);
            self.result(what, held + moved, after.outputs[number]);
            self.moved(what, held, held + moved);
        }
    }

    /// Counts the speeds and positions of a clapper, at the steps that change them.
    fn clapper(&mut self, b: i64, part: &Part, number: usize, points: &[Line]) {
        let mut speed = b;
        for step in points.windows(2) {
            let swing = Swing::of(part, number, speed, &step[0], &step[1]);
            let position = step[0].outputs[number].unwrap_or(0);
            if swing.speed != speed {
                self.place(SPEED, swing.speed);
                self.moved(SPEED, speed, swing.speed);
            }
            if swing.position != position {
                self.result(POSITION, swing.position, step[1].outputs[number]);
                self.moved(POSITION, position, swing.position);
            }
            speed = clamped(swing.speed).0;
        }
    }

    /// Counts a result, and whether the value next to it is shown.
    fn result(&mut self, what: usize, result: i64, shown: Option<i64>) {
        self.place(what, result);
        self.astray += u64::from(shown != Some(clamped(result).0));
    }

    /// Counts where a result lies.
    fn place(&mut self, what: usize, result: i64) {
        let place = match result.abs() - BILLION {
            within if within < 0 => return,
            0 => 0,
            1 => 1,
            _ => 2,
        };
        self.results[what][if result > 0 { 3 + place } else { 2 - place }] += 1;
    }

    /// Counts a product or a sum of two numbers where both are at an end.
    fn pair(&mut self, what: usize, numbers: [i64; 2]) {
        if numbers.iter().all(|number| number.abs() == BILLION) {
            let [first, second] = numbers.map(|number| usize::from(number < 0));
            self.pairs[what][2 * first + second] += 1;
        }
    }

    /// Counts a move of a number where it leads across all values.
    fn moved(&mut self, what: usize, from: i64, to: i64) {
        if from.abs() == BILLION && (if from > 0 { -to } else { to }) >= BILLION {
            self.across[what][usize::from(from < 0)] += 1;
        }
    }

    /// Adds what another thread counted.
    pub fn add(&mut self, other: &Ends) {
        add_each(self.results.as_flattened_mut(), other.results.as_flattened());
        add_each(self.pairs.as_flattened_mut(), other.pairs.as_flattened());
        add_each(self.across.as_flattened_mut(), other.across.as_flattened());
        self.astray += other.astray;
    }

    /// How often a value was shown that the lines do not lead to.
    pub fn astray(&self) -> u64 {
        self.astray
    }

    /// Each with its name.
    pub fn named(&self) -> Vec<(String, u64)> {
        let mut all = Vec::new();
        for (what, name) in RESULTS.iter().enumerate() {
            all.extend(PLACES.iter().zip(self.results[what]).map(|(place, count)| (format!("{name} {place}"), count)));
            if let Some(&pairs) = self.pairs.get(what) {
                all.extend(PAIRS.iter().zip(pairs).map(|(pair, count)| (format!("{name} of {pair}"), count)));
            } else {
                let across = ACROSS.iter().zip(self.across[what]);
                all.extend(across.map(|(ends, count)| (format!("{name} {ends} or beyond"), count)));
            }
        }
        all
    }
}
