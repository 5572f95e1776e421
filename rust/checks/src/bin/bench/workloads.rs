//! Fixed tables and scores.

use cases::draft::*;
use cases::random::Random;

/// The program reads no more.
const LONGEST: usize = 65_536;

/// Each workload's name and stream.
pub fn all() -> Vec<(String, Vec<u8>)> {
    let mut all = vec![
        ("two".to_string(), stream(&two(), 1, 20)),
        ("mixed".to_string(), stream(&mixed(32), 1, 60)),
        ("clappers".to_string(), stream(&clappers(), 1, 60)),
        ("drives".to_string(), stream(&drives(), 1, 200)),
        ("revisions".to_string(), stream(&revisions(), 500, 5000)),
    ];
    all.extend([1, 2, 4, 8, 16, 32].map(|parts| (format!("mixed-{parts}"), stream(&mixed(parts), 1, 60))));
    all
}

/// A table and as many wanted steps from `low` to `high` as there is room for.
fn stream(draft: &Draft, low: i64, high: i64) -> Vec<u8> {
    let mut random = Random::of_case(1, draft.rows.len() as u64);
    let mut bytes = draft.commands(&mut random).concat();
    while bytes.len() + 5 <= LONGEST {
        bytes.extend(wanted(random.between(low, high) as u32));
    }
    bytes
}

/// A constant into an integrator.
fn two() -> Draft {
    let mut draft = Draft::default();
    let constant = draft.add(CONSTANT, 1, 0, 0);
    draft.add_reading(constant, INTEGRATOR, 0, 0);
    draft
}

/// The wires within a half of `mixed`: source, receiving part and receiving port.
const MIXED_WIRES: [(usize, usize, u8); 17] = [
    (0, 1, 0),
    (2, 3, 0),
    (3, 4, 0),
    (14, 4, 1),
    (15, 5, 0),
    (4, 7, 0),
    (6, 7, 1),
    (7, 8, 0),
    (8, 9, 0),
    (3, 9, 1),
    (6, 10, 0),
    (2, 11, 0),
    (9, 12, 0),
    (1, 12, 1),
    (10, 13, 0),
    (5, 14, 0),
    (3, 15, 0),
];

/// The first parts of a table of 32 with all kinds, and the wires among them.
fn mixed(parts: usize) -> Draft {
    let mut draft = Draft { magnitude: 1, ..Draft::default() };
    for half in 0..2 {
        let p = |p: u32| p + 37 * half;
        let first = draft.rows.len();
        draft.add(CONSTANT, 3, 0, 0);
        draft.add(INTEGRATOR, -40, 0, 0);
        draft.add(SQUARE, 5, -5, p(90));
        draft.add(GAIN, -2, 0, 0);
        draft.add(RESET, 7, 0, 0);
        draft.add(DETECTOR, 0, 0, p(20));
        draft.add(PULSE, 9, 0, p(70));
        draft.add(SAMPLER, 0, 0, 0);
        draft.add(HOLD, 0, 0, 0);
        draft.add(ADDER, 0, 0, 0);
        draft.add(DELAY, 0, 0, 0);
        draft.add_drive(0, vec![1, 2, 3, 4, 6]);
        draft.add(ADDER, 0, 0, 0);
        draft.add(HOLD, 0, 0, 0);
        draft.add(GAIN, 3, 0, 0);
        draft.add(INTEGRATOR, 1, 0, 0);
        draft.rows[first + 11].preference = 0;
        draft.rows[first + 4].preference = half as u8;
        for (source, reader, port) in MIXED_WIRES {
            draft.wire(first + source, first + reader, port);
        }
    }
    draft.rows.truncate(parts);
    draft.wires.retain(|wire| wire.0 < parts && wire.1 < parts);
    draft
}

/// `mixed` with clappers in place of its integrators, reset integrators, samplers and holds, of ratios 1 and 100. None
/// comes to an end of the values; the one that the detector reads goes through zero and back with the square.
fn clappers() -> Draft {
    let mut draft = Draft { magnitude: 2, ..mixed(32) };
    for half in 0..2 {
        let first = 16 * half;
        // After so many of ratio 100 the square switches. The gain has then taken a speed of 5 × ticks (500 × ticks at
        // ratio 1) to its opposite.
        let ticks = 1 + half as i32;
        let square = &mut draft.rows[first + 2];
        (square.p, square.preference) = (ticks as u32, 0);
        draft.rows[first + 11].preference = 1;
        let none = draft.rows[first].preference;
        for (number, b, preference, source) in [
            (1, 0, 0, 0),
            (4, [5, 1000][half], 2 * half as u8, 3),
            (7, -2, 0, 10),
            (8, 0, none, 14),
            (13, 500 * ticks, none, 3),
            (15, 5 * ticks, 0, 3),
        ] {
            let row = &mut draft.rows[first + number];
            (row.kind, row.b, row.preference) = (CLAPPER, b, preference);
            draft.wires.retain(|wire| wire.1 != first + number);
            draft.wire(first + source, first + number, 0);
        }
    }
    draft
}

/// 32 drives of three ratios with eight spans each; a step of 1 suits them all.
fn drives() -> Draft {
    let mut draft = Draft { magnitude: 2, ..Draft::default() };
    for number in 0..32 {
        // Ratio 1 where a drive has no preference or prefers 2, 10 where it prefers 1, 100 where it prefers 0.
        let preference = [NO_PREFERENCE, 2, 1, 0][number % 4];
        let spans = match number % 4 {
            0 | 1 => (0..8).map(|at| 1 + at * (at + 1) * 2 + u32::from(at > 5) * (number as u32 / 8)).collect(),
            2 => (1..9).map(|at| if at > 6 { at + 2 } else { at }).collect(),
            _ => (1..9).collect(),
        };
        let drive = draft.add_drive(number as i32, spans);
        draft.rows[drive].preference = preference;
        draft.wire((number + 5) % 32, drive, 0);
        if let Some(wire) = draft.wires.last_mut() {
            wire.0 = wire.0.min(number);
        }
    }
    draft
}

/// Six numbers that fall and are sent back up when a detector finds them below 0.
fn revisions() -> Draft {
    let mut draft = Draft::default();
    for number in 0..6 {
        let rate = draft.add(CONSTANT, -1 - number, 0, 0);
        let level = draft.add_reading(rate, RESET, 1000 + 100 * number, 0);
        let detector = draft.add_reading(level, DETECTOR, 0, 4 + number as u32);
        let top = draft.add(CONSTANT, 2000 + 300 * number, 0, 0);
        let back = draft.add_joining(SAMPLER, top, detector);
        draft.wire(back, level, 1);
    }
    draft
}
