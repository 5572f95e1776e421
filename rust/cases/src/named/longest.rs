//! The longest table: 32 drives with eight spans each, all ports wired. It has 2 + 32 × (15 + 8 × 5 + 4) + 1 = 1,891
//! bytes, and saved as many, since its commands are then the same ones in another order.

use super::{case, Named, Table};
use crate::draft::*;

/// All of them.
pub fn longest() -> Vec<Named> {
    // From 1 with d = 8: 1 + 1 × 8 = 9. With d = 1: 9 + 9 = 18.
    let lines = format!("8 0 8 2 0{}\n9 0 1 1 0{}\n", " 9".repeat(32), " 18".repeat(32));
    let mut falling = drives();
    falling.0.wires.reverse();
    vec![
        case("the longest table, in the order that it is saved in", drives().score(&[9, 1]), &lines, None),
        case("the longest table, with its wires in falling order", falling.score(&[9, 1]), &lines, None),
        case("the longest table and a wire more", with_more([4, 0, 31, 0]), "refused 8 at 1890\n", None),
        case("the longest table and a span more", with_more([3, 9, 0, 0]), "refused 3 at 1890\n", None),
    ]
}

/// Drives that start at 1 and have spans 1 to 8. Each reads the next one, and the last one the first.
fn drives() -> Table {
    let parts = (0..32).fold(Table::new(0), |table, _| table.part(DRIVE, 1, 0, 0).spans(&[1, 2, 3, 4, 5, 6, 7, 8]));
    (0..32).fold(parts, |table, number| table.wire((number + 1) % 32, number, 0))
}

/// The longest table with four bytes more before its End.
fn with_more(bytes: [u8; 4]) -> Vec<u8> {
    let mut stream = drives().score(&[]);
    stream.pop();
    stream.extend(bytes);
    stream.push(5);
    stream
}
