//! Tables whose numbers come to the ends of the values: to each end, one beyond it, far beyond it, and from one to
//! the other.

use crate::draft::*;

const BILLION: i32 = 1_000_000_000;

/// Each table, with a step of one tick and with one of three.
pub fn extremes() -> Vec<Vec<u8>> {
    let tables = [products(), sums(), integrated(), clappers()];
    tables.iter().flat_map(|table| [1, 3].map(|w| [table.in_order(), wanted(w)].concat())).collect()
}

/// Two numbers whose sum is an end, one beyond it or far beyond it. The last two lead from one end to the other in a
/// step of three ticks.
const STARTS_AND_RATES: [[i32; 2]; 8] = [
    [BILLION - 1, 1],
    [BILLION, 1],
    [BILLION, BILLION],
    [1 - BILLION, -1],
    [-BILLION, -1],
    [-BILLION, -BILLION],
    [BILLION, -BILLION],
    [-BILLION, BILLION],
];

/// Gains of constants.
fn products() -> Draft {
    // 1001 × 999001 is 10^9 + 1.
    let (short, long) = (1001, 999_001);
    let mut draft = Draft::default();
    for [a, x] in [[BILLION, BILLION], [1, BILLION], [short, long]] {
        for [a, x] in [[a, x], [-a, -x], [a, -x], [-a, x]] {
            let constant = draft.add(CONSTANT, x, 0, 0);
            draft.add_reading(constant, GAIN, a, 0);
        }
    }
    draft
}

/// Adders of two constants.
fn sums() -> Draft {
    let mut draft = Draft::default();
    let others = [[BILLION, 0], [0, -BILLION]];
    for numbers in STARTS_AND_RATES.into_iter().chain(others) {
        let [x, y] = numbers.map(|number| draft.add(CONSTANT, number, 0, 0));
        draft.add_joining(ADDER, x, y);
    }
    draft
}

/// Constants of the rates 1, -1, 10^9 and -10^9, and the one of a rate.
fn rates(draft: &mut Draft) -> impl Fn(i32) -> usize {
    let rates = [1, -1, BILLION, -BILLION];
    let numbers = rates.map(|rate| draft.add(CONSTANT, rate, 0, 0));
    move |rate| rates.iter().position(|&known| known == rate).map_or(0, |at| numbers[at])
}

/// Parts that integrate a constant from an end or close to it.
fn integrated() -> Draft {
    let mut draft = Draft::default();
    let rate_of = rates(&mut draft);
    for kind in [INTEGRATOR, RESET, DRIVE] {
        for [start, rate] in STARTS_AND_RATES {
            let number = draft.add_reading(rate_of(rate), kind, start, 0);
            if kind == DRIVE {
                draft.rows[number].spans = vec![1, 3];
            }
        }
    }
    draft
}

/// Clappers that a constant speeds up, and ones that their first speed moves.
fn clappers() -> Draft {
    let mut draft = Draft::default();
    let rate_of = rates(&mut draft);
    for [speed, rate] in STARTS_AND_RATES {
        let number = draft.add_reading(rate_of(rate), CLAPPER, 0, 0);
        draft.rows[number].b = speed;
    }
    for [position, speed] in STARTS_AND_RATES {
        draft.add(CLAPPER, position, speed, 0);
    }
    draft
}
