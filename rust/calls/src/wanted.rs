//! Wanted steps for a model, sound or not.

use crate::alter::{any, BILLION, LAST_TICK};
use crate::words::*;
use cases::random::Random;

/// A wanted step: of the sizes that matter to some part or to the last tick, or any number of 64 bits.
pub fn wanted(words: &Words, random: &mut Random) -> u64 {
    match random.below(24) {
        0..=2 => random.pick(&[0, 1, BILLION, BILLION + 1, BILLION - 1, 1 << 32, (1 << 32) + 1, 1 << 63, u64::MAX]),
        3 => any(random) >> random.below(64),
        4 => u64::MAX - random.below(3) as u64,
        5..=9 if words.0[T] <= LAST_TICK && LAST_TICK - words.0[T] <= BILLION => {
            (LAST_TICK - words.0[T] + random.below(3) as u64).saturating_sub(1)
        }
        5..=9 => random.of_any_size(BILLION),
        10..=14 if (1..=32).contains(&words.0[COUNT]) => {
            let part = words.part(random.below(words.count()));
            let count = match part[KIND] {
                3 | 4 | 8 => part[P],
                12 => 1,
                _ => part[FIRST_SPAN],
            };
            let telling = count.saturating_mul(part[RATIO]).clamp(1, BILLION);
            (telling * random.between(1, 3) as u64 + random.below(3) as u64 - 1).clamp(1, BILLION)
        }
        15 => BILLION,
        _ => 1 + random.below(40) as u64,
    }
}
