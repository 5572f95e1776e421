//! Cases of request 2. Above each is how its answer comes about: of each step the new speed, s = clamp(s + x × d),
//! and the position that s × d leads to.

use super::{case, Named, Table};
use crate::draft::*;

const BILLION: i32 = 1_000_000_000;

/// All of them.
pub fn clappers() -> Vec<Named> {
    [speeds(), operands(), inputs(), among_others()].into_iter().flatten().collect()
}

/// A constant into a clapper.
fn clapper(x: i32, a: i32, b: i32) -> Table {
    Table::new(0).part(CONSTANT, x, 0, 0).part(CLAPPER, a, b, 0).wire(0, 1, 0)
}

/// Which speed moves the position, and what becomes of it.
fn speeds() -> Vec<Named> {
    vec![
        case(
            "missed: the old speed moves a clapper",
            // d = 2: s = 0 + 1 × 2 = 2, 0 + 2 × 2 = 4. d = 1: s = 2 + 1 = 3, 4 + 3 = 7.
            // By the old speeds: 0 + 0 × 2 = 0, then 0 + 2 = 2.
            clapper(1, 0, 0).score(&[2, 1]),
            "2 0 2 1 0 1 4\n3 0 1 1 0 1 7\n",
            Some("2 0 2 1 0 1 0\n3 0 1 1 0 1 2\n"),
        ),
        case(
            "missed: a clapper's speed is clamped only after it moved the position",
            // d = 1: s = clamp(10^9 + 10^9) = 10^9, -10^9 + 10^9 = 0, not -10^9 + 2 × 10^9; and the same downwards.
            clapper(BILLION, -BILLION, BILLION)
                .part(CONSTANT, -BILLION, 0, 0)
                .part(CLAPPER, BILLION, -BILLION, 0)
                .wire(2, 3, 0)
                .score(&[1]),
            "1 0 1 1 0 1000000000 0 -1000000000 0\n",
            Some("1 0 1 1 0 1000000000 1000000000 -1000000000 -1000000000\n"),
        ),
        case(
            "missed: a clapper comes to rest at an end of the values",
            // s = 4 - 1 = 3, clamp(10^9 - 1 + 3) = 10^9; s = 2, still 10^9; s = 1; s = 0; s = -1, 10^9 - 1.
            // At rest: s = 0 - 1, 10^9 - 1; s = -2, 10^9 - 3; s = -3, 10^9 - 6; s = -4, 10^9 - 10.
            clapper(-1, BILLION - 1, 4).score(&[1; 5]),
            "1 0 1 1 0 -1 1000000000\n2 0 1 1 0 -1 1000000000\n3 0 1 1 0 -1 1000000000\n4 0 1 1 0 -1 1000000000\n\
             5 0 1 1 0 -1 999999999\n",
            Some(
                "1 0 1 1 0 -1 1000000000\n2 0 1 1 0 -1 999999999\n3 0 1 1 0 -1 999999997\n4 0 1 1 0 -1 999999994\n\
                 5 0 1 1 0 -1 999999990\n",
            ),
        ),
    ]
}

/// Which operands there are.
fn operands() -> Vec<Named> {
    vec![
        case(
            "missed: a clapper is at rest at first",
            // Unwired, so x counts as 0 and s stays 3: 5 + 3 × 2 = 11, 11 + 3 × 1 = 14.
            Table::new(0).part(CLAPPER, 5, 3, 0).score(&[2, 1]),
            "2 0 2 1 0 11\n3 0 1 1 0 14\n",
            Some("2 0 2 1 0 5\n3 0 1 1 0 5\n"),
        ),
        case(
            "missed: a clapper does not name b",
            // s stays -7: 0 - 7 × 3 = -21.
            Table::new(0).part(CLAPPER, 0, -7, 0).score(&[3]),
            "3 0 3 1 0 -21\n",
            Some("refused 5 at 2\n"),
        ),
        case(
            "missed: a clapper names p",
            Table::new(0).part(CLAPPER, 0, -7, 1).score(&[3]),
            "refused 5 at 2\n",
            Some("3 0 3 1 0 -21\n"),
        ),
    ]
}

/// What x and d are.
fn inputs() -> Vec<Named> {
    let integrator = Table::new(0).part(CONSTANT, 1, 0, 0).part(INTEGRATOR, 0, 0, 0).wire(0, 1, 0);
    vec![
        case(
            "missed: master ticks move a clapper",
            // Ratio 10, ticks 7, 14, 20: local counts 0, 1, 2, so d = 0, 1, 1; s = 0, 1, 2 and 0, 0 + 1 = 1, 1 + 2 = 3.
            // By master ticks: s = 7, 14, 20 and 0 + 7 × 7 = 49, 49 + 14 × 7 = 147, 147 + 20 × 6 = 267.
            Table::new(1).part(CONSTANT, 1, 0, 0).preferring(0, CLAPPER, 0, 0, 0).wire(0, 1, 0).score(&[7, 7, 6]),
            "7 0 7 1 0 1 0\n14 0 7 1 0 1 1\n20 0 6 1 0 1 3\n",
            Some("7 0 7 1 0 1 49\n14 0 7 1 0 1 147\n20 0 6 1 0 1 267\n"),
        ),
        case(
            "missed: a clapper stays where it is while its input is absent",
            // The pulse is there at (3, 1) and (6, 1) only. From (0, 0): s = 1, 0 + 1 × 3 = 3. From (3, 1): s = 1 + 2 ×
            // 3 = 7, 3 + 7 × 3 = 24. From (6, 1): s = 7 + 2 × 2 = 11, 24 + 11 × 2 = 46. From (8, 0): s = 11, 46 + 11 =
            // 57. By standing still from (0, 0) and (8, 0): 0, 0 + 7 × 3 = 21, 21 + 11 × 2 = 43, 43.
            Table::new(0).part(PULSE, 2, 0, 3).part(CLAPPER, 0, 1, 0).wire(0, 1, 0).score(&[3, 3, 3, 3, 2, 1]),
            "3 0 3 1 0 - 3\n3 1 0 2 0 2 3\n6 0 3 1 0 - 24\n6 1 0 2 0 2 24\n8 0 2 1 0 - 46\n9 0 1 1 0 - 57\n",
            Some("3 0 3 1 0 - 0\n3 1 0 2 0 2 0\n6 0 3 1 0 - 21\n6 1 0 2 0 2 21\n8 0 2 1 0 - 43\n9 0 1 1 0 - 43\n"),
        ),
        case(
            "missed: a clapper reads its input at the new point",
            // The integrator shows 0, 2, 4. By the old points: s = 0 + 0, 0; s = 0 + 2 × 2 = 4, 0 + 4 × 2 = 8.
            // By the new ones: s = 0 + 2 × 2 = 4, 0 + 4 × 2 = 8; s = 4 + 4 × 2 = 12, 8 + 12 × 2 = 32.
            integrator.part(CLAPPER, 0, 0, 0).wire(1, 2, 0).score(&[2, 2]),
            "2 0 2 1 0 1 2 0\n4 0 2 1 0 1 4 8\n",
            Some("2 0 2 1 0 1 2 8\n4 0 2 1 0 1 4 32\n"),
        ),
    ]
}

/// A clapper that reads its own position, and one that a detector finds.
fn among_others() -> Vec<Named> {
    vec![
        case(
            "missed: a clapper's port is direct",
            // The gain shows -10, 0, 10. s = 0 - 10 = -10, 10 - 10 = 0; s = -10 + 0 = -10, 0 - 10 = -10; s = -10 + 10 =
            // 0, -10 + 0 = -10. End is after 2 + 15 + 15 + 4 + 4 bytes.
            Table::new(0).part(CLAPPER, 10, 0, 0).part(GAIN, -1, 0, 0).wire(0, 1, 0).wire(1, 0, 0).score(&[1; 3]),
            "1 0 1 1 0 0 0\n2 0 1 1 0 -10 10\n3 0 1 1 0 -10 10\n",
            Some("refused 11 at 40\n"),
        ),
        case(
            "missed: a clapper's speed changed by a dropped trial",
            // From -10 with s = 0: h = 8: s = 8, 54; h = 4: s = 4, 6; h = 2: s = 2, -6. Then h = 8, 4, 2 lead to 74,
            // 18, 2, and h = 1: s = 3, -3. Then they lead to 85, 25, 7, and h = 1: s = 4, 1, in time. A step of 0 shows
            // the mark. By speeds that stay: h = 8, 4, 2, 1: s = 8, 12, 14, 15, and 54, 38, 18, 5. A step of 0 shows
            // the mark. Then h = 8: s = 15 + 8 = 23, 5 + 23 × 8 = 189. h = 8: s = 31, 189 + 31 × 8 = 437.
            clapper(1, -10, 0).part(DETECTOR, 0, 0, 1).wire(1, 2, 0).score(&[8; 4]),
            "2 0 2 3 2 1 -6 -\n3 0 1 4 3 1 -3 -\n4 0 1 4 3 1 1 -\n4 1 0 2 0 1 1 1\n",
            Some("1 0 1 4 3 1 5 -\n1 1 0 2 0 1 5 1\n9 0 8 1 0 1 189 -\n17 0 8 1 0 1 437 -\n"),
        ),
    ]
}
