//! Clappers with mass among parts that move them, send them back or find where they are.

use super::{any_part, source, Scale, BILLION};
use crate::draft::*;
use crate::random::Random;

/// A clapper and what works together with it.
pub fn clapping(draft: &mut Draft, scale: Scale, random: &mut Random) {
    match random.below(4) {
        0 => swinging(draft, scale, random),
        1 => thrown(draft, scale, random),
        2 => pushed_at_times(draft, scale, random),
        _ => from_end_to_end(draft, random),
    }
}

/// A clapper that its own position sends back, mostly with something added, and a detector on it.
fn swinging(draft: &mut Draft, scale: Scale, random: &mut Random) {
    let clapper = any_part(draft, CLAPPER, scale, random);
    let mut push = draft.add_reading(clapper, GAIN, random.pick(&[-1, -1, -2, 1]), 0);
    if !random.once_in(3) {
        let other = source(draft, scale, random);
        push = draft.add_joining(ADDER, push, other);
    }
    draft.wire(push, clapper, 0);
    draft.add_reading(clapper, DETECTOR, 0, scale.tolerance(random));
}

/// A clapper with a first speed away from zero and a steady input back, and a detector that finds it coming through.
fn thrown(draft: &mut Draft, scale: Scale, random: &mut Random) {
    let away = random.pick(&[1, -1]);
    let steady = draft.add(CONSTANT, -away * scale.positive(random), 0, 0);
    let clapper = draft.add_reading(steady, CLAPPER, away * random.between(0, 9) as i32, 0);
    draft.rows[clapper].b = away * scale.positive(random);
    let detector = draft.add_reading(clapper, DETECTOR, 0, scale.tolerance(random));
    if random.once_in(2) {
        draft.add_reading(detector, HOLD, 0, 0);
    }
}

/// A clapper whose input is mostly absent: a pulse, a sample, or what a detector on it shows.
fn pushed_at_times(draft: &mut Draft, scale: Scale, random: &mut Random) {
    let clapper = any_part(draft, CLAPPER, scale, random);
    let push = match random.below(3) {
        0 => any_part(draft, PULSE, scale, random),
        1 => {
            let from = source(draft, scale, random);
            let pulse = any_part(draft, PULSE, scale, random);
            draft.add_joining(SAMPLER, from, pulse)
        }
        _ => {
            let detector = draft.add_reading(clapper, DETECTOR, 0, scale.tolerance(random));
            draft.add_reading(detector, GAIN, scale.value(random), 0)
        }
    };
    draft.wire(push, clapper, 0);
}

/// A clapper far out whose first speed leads to the other end, and a large input that switches after a few ticks.
fn from_end_to_end(draft: &mut Draft, random: &mut Random) {
    let large = |random: &mut Random| random.between(BILLION as i64 / 4, BILLION as i64) as i32;
    let onward = random.pick(&[1, -1]);
    let ticks = random.between(1, 4) as u32;
    let push = draft.add(SQUARE, onward * large(random), -onward * large(random), ticks);
    let clapper = draft.add_reading(push, CLAPPER, -onward * large(random), 0);
    draft.rows[clapper].b = onward * large(random);
    if random.once_in(3) {
        draft.add_reading(clapper, DETECTOR, 0, random.between(1, 4) as u32);
    }
}
