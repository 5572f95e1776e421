//! Full tables, of 32 parts: ones whose last part does something, mostly as the only part that can, and the longest
//! ones.

use super::{any_part, join, prefer, Scale, BILLION};
use crate::draft::*;
use crate::random::Random;

/// Kinds that are never due, accept every step and do not object.
const QUIET: [u8; 8] = [CONSTANT, GAIN, ADDER, INTEGRATOR, RESET, HOLD, SAMPLER, CLAPPER];

/// A full table.
pub fn full(random: &mut Random) -> Draft {
    if random.once_in(12) {
        return longest(random);
    }
    let kind = random.below(KINDS) as u8;
    let (scale, quiet) = (Scale::any(random), !random.once_in(4));
    let mut draft = Draft::default();
    let early = random.below(24);
    fill(&mut draft, early, scale, quiet, random);
    let sources = sources(&mut draft, kind, scale, random);
    fill(&mut draft, 31, scale, quiet, random);
    let last = any_part(&mut draft, kind, scale, random);
    if kind == DETECTOR {
        draft.rows[last].p = random.between(1, 3) as u32;
    }
    for (port, source) in sources.into_iter().enumerate() {
        draft.wire(source, last, port as u8);
    }
    join(&mut draft, random);
    if random.once_in(3) {
        prefer(&mut draft, random);
    }
    draft
}

/// Adds parts up to a number of them.
fn fill(draft: &mut Draft, parts: usize, scale: Scale, quiet: bool, random: &mut Random) {
    while draft.rows.len() < parts {
        let kind = if quiet { random.pick(&QUIET) } else { random.below(KINDS) as u8 };
        any_part(draft, kind, scale, random);
    }
}

/// What a part of a kind reads, so that it does something: the sources of its ports, at most four parts.
fn sources(draft: &mut Draft, kind: u8, scale: Scale, random: &mut Random) -> Vec<usize> {
    let rate = scale.positive(random) * random.pick(&[1, -1]);
    let constant = draft.add(CONSTANT, rate, 0, 0);
    let ticks = random.between(1, 6);
    let start = (-i64::from(rate) * ticks).clamp(-(BILLION as i64), BILLION as i64) as i32;
    match kind {
        CONSTANT | SQUARE | PULSE => vec![],
        INTEGRATOR | DRIVE => vec![constant],
        GAIN | DETECTOR => vec![draft.add_reading(constant, INTEGRATOR, start, 0)],
        ADDER => vec![draft.add_reading(constant, INTEGRATOR, start, 0), constant],
        DELAY if random.once_in(2) => vec![constant],
        DELAY | HOLD | CLAPPER => vec![any_part(draft, PULSE, scale, random)],
        RESET => vec![constant, any_part(draft, PULSE, scale, random)],
        _ => vec![draft.add_reading(constant, INTEGRATOR, start, 0), any_part(draft, PULSE, scale, random)],
    }
}

/// The longest table: drives with eight spans each, all ports wired.
fn longest(random: &mut Random) -> Draft {
    let mut draft = Draft::default();
    let scale = Scale::any(random);
    let most = random.pick(&[9, 30, 1000, BILLION as i64]);
    for _ in 0..32 {
        let mut spans = vec![1];
        while spans.len() < 8 {
            spans.push(random.between(2, most) as u32);
            spans.sort_unstable();
            spans.dedup();
        }
        draft.add_drive(scale.value(random), spans);
    }
    for reader in 0..32 {
        draft.wire(random.below(32), reader, 0);
    }
    draft
}
