//! Commands with several faults at once. The refusal is the first of them in the order 2, 3, 1, 6, 5, 12, 7, 8, and
//! at End in the order 9, 10, 11.

use super::{good_row, row};
use crate::draft::*;

const BEGIN: [u8; 2] = [1, 0];
const WIRE: [u8; 4] = [4, 0, 0, 0];

/// Streams whose commands have several faults at once.
pub fn faults() -> Vec<Vec<u8>> {
    [out_of_place(), cut(), too_many(), of_operands(), at_end()].concat()
}

/// A table of 32 parts without its End.
fn full() -> Vec<u8> {
    [&BEGIN[..], &good_row(INTEGRATOR).repeat(32)].concat()
}

/// A drive with so many spans, 10, 20 and so on, without an End.
fn drive(spans: u32) -> Vec<u8> {
    let spans: Vec<u8> = (1..=spans).flat_map(|at| span(10 * at)).collect();
    [&BEGIN[..], &good_row(DRIVE), &spans].concat()
}

/// Parts of no kind, without a preference that there is, and with an operand out of its range.
fn bad_rows() -> [Vec<u8>; 3] {
    let [a, b, p] = [1_000_000_001, 0, 0];
    [row(KINDS as u8, NO_PREFERENCE, [0; 3]), row(CONSTANT, 16, [0; 3]), row(CONSTANT, NO_PREFERENCE, [a, b, p])]
}

/// Commands out of place that have another fault: 3 with 1, 5, 6, 7, 9 or 12.
fn out_of_place() -> Vec<Vec<u8>> {
    let mut all = vec![WIRE.to_vec(), vec![5], [BEGIN, [1, 16]].concat(), vec![1, 0, 1]];
    for number in [0, 80, 81, 1_000_000_001] {
        all.push([&drive(8)[..], &WIRE, &span(number)].concat());
        all.push([&drive(1)[..], &WIRE, &span(number.min(10))].concat());
    }
    all.extend(bad_rows());
    all
}

/// Cut commands that have another fault before the cut: 1 with 5, 6 or 7.
fn cut() -> Vec<Vec<u8>> {
    let mut all = Vec::new();
    for length in 1..15 {
        all.push([&full()[..], &good_row(CONSTANT)[..length]].concat());
        all.extend(bad_rows().map(|bad| [&BEGIN[..], &bad[..length]].concat()));
    }
    for length in 1..5 {
        all.push([&drive(8)[..], &span(90)[..length]].concat());
    }
    for wire in [&[4, 1][..], &[4, 1, 0], &[4, 0, 1], &[4, 255, 255]] {
        all.push([&drive(0)[..], wire].concat());
    }
    all
}

/// A 33rd part and a ninth span that have another fault: 6 with 5 or 12.
fn too_many() -> Vec<Vec<u8>> {
    let parts = bad_rows().map(|bad| [full(), bad].concat());
    let spans = [0, 1, 79, 80, 1_000_000_001].map(|number| [drive(8), span(number)].concat());
    parts.into_iter().chain(spans).collect()
}

/// Operands with two faults: 5 with 12, and 7 with 8.
fn of_operands() -> Vec<Vec<u8>> {
    let wires = [[4, 1, 0, 0], [4, 255, 0, 0]].map(|wire| [&drive(2)[..], &WIRE, &wire].concat());
    [vec![[drive(2), span(0)].concat()], wires.to_vec()].concat()
}

/// A P above 10^18, a loop, and both.
fn at_end() -> Vec<Vec<u8>> {
    let mut all = Vec::new();
    for kind in [SQUARE, PULSE, DETECTOR] {
        for p in [1000, 1001] {
            let mut draft = Draft { magnitude: 15, ..Draft::default() };
            draft.add(kind, 0, 0, p);
            draft.rows[0].preference = 0;
            all.push([draft.in_order(), wanted(1)].concat());
            let gain = draft.add(GAIN, 1, 0, 0);
            draft.wire(gain, gain, 0);
            all.push(draft.in_order());
        }
    }
    all
}
