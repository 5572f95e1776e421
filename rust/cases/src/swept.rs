//! Small cases that go through all of a kind: every operand at the edges of its range, every port, every cut of a
//! stream, every short sequence of commands, commands with several faults, numbers at the ends of the values.

mod extremes;
mod faults;

use crate::draft::*;

const SCORE: [u8; 10] = [6, 2, 0, 0, 0, 6, 5, 0, 0, 0];

/// The operands that a kind names, with good numbers, 0 elsewhere.
pub fn good_operands(kind: u8) -> [i64; 3] {
    match kind {
        CONSTANT | GAIN | INTEGRATOR | RESET | DRIVE => [2, 0, 0],
        SQUARE => [2, 3, 4],
        CLAPPER => [2, 3, 0],
        PULSE => [2, 0, 4],
        DETECTOR => [0, 0, 4],
        _ => [0; 3],
    }
}

/// A part command with these operands.
fn row(kind: u8, preference: u8, [a, b, p]: [i64; 3]) -> Vec<u8> {
    Row { kind, preference, a: a as i32, b: b as i32, p: p as u32, spans: Vec::new() }.bytes()
}

/// A part command that is accepted.
fn good_row(kind: u8) -> Vec<u8> {
    row(kind, NO_PREFERENCE, good_operands(kind))
}

/// Streams, each given by its commands.
#[derive(Default)]
struct Streams(Vec<Vec<u8>>);

impl Streams {
    /// Adds a stream.
    fn add(&mut self, commands: &[&[u8]]) {
        self.0.push(commands.concat());
    }
}

/// All swept streams, in an order that does not change.
pub fn swept() -> Vec<Vec<u8>> {
    let mut all = Streams::default();
    for kind in 0..=KINDS as u8 {
        operands(kind, &mut all);
        ports(kind, &mut all);
    }
    bytes(&mut all);
    spans(&mut all);
    wires(&mut all);
    wanted_steps(&mut all);
    all.0.extend(faults::faults());
    all.0.extend(extremes::extremes());
    let drive = [good_row(DRIVE), span(2), span(5)].concat();
    cuts(&drive, &mut all);
    sequences(&[], &mut all);
    sequences(&[&[1, 0], &drive[..]].concat(), &mut all);
    all.0
}

/// Each operand of a kind at the edges of its range, and the preferences.
fn operands(kind: u8, all: &mut Streams) {
    let billion = 1_000_000_000;
    let edges = [0, 1, -1, billion, -billion, billion + 1, -billion - 1, i64::from(i32::MAX), i64::from(i32::MIN)];
    for operand in 0..3 {
        for edge in edges {
            let mut operands = good_operands(kind);
            operands[operand] = edge;
            all.add(&[&[1, 0], &row(kind, NO_PREFERENCE, operands), &[5], &SCORE]);
        }
    }
    for preference in [0, 1, 14, 15, 16, 17, 0x7F, 0x80, 0xFE] {
        all.add(&[&[1, 3], &row(kind, preference, good_operands(kind)), &[5], &SCORE]);
    }
}

/// Each port of a kind wired once, wired twice, and wired to the part itself.
fn ports(kind: u8, all: &mut Streams) {
    for port in [0, 1, 2, 3, 255] {
        let wire = [4, 0, 1, port];
        all.add(&[&[1, 0], &good_row(CONSTANT), &good_row(kind), &wire, &[5], &SCORE]);
        all.add(&[&[1, 0], &good_row(CONSTANT), &good_row(kind), &wire, &wire, &[5], &SCORE]);
        all.add(&[&[1, 0], &good_row(kind), &[4, 0, 0, port], &[5], &SCORE]);
    }
}

/// Every byte as the default magnitude, and where a command may be.
fn bytes(all: &mut Streams) {
    for byte in 0..=255 {
        all.add(&[&[1, byte], &good_row(CONSTANT), &[5], &SCORE]);
        all.add(&[&[byte]]);
        all.add(&[&[1, 0], &[byte]]);
        all.add(&[&[1, 0], &good_row(CONSTANT), &[5], &SCORE, &[byte], &SCORE]);
        all.add(&[&[1, 0], &good_row(CONSTANT), &[5], &SCORE, &[byte]]);
    }
}

/// Spans at the edges of their range, and at those of the one before.
fn spans(all: &mut Streams) {
    let start = [&[1, 0][..], &good_row(DRIVE)].concat();
    for first in [0, 1, 2, 999_999_999, 1_000_000_000, 1_000_000_001, u32::MAX] {
        all.add(&[&start, &span(first), &[5], &SCORE]);
        for second in [first.saturating_sub(1), first, first.saturating_add(1)] {
            all.add(&[&start, &span(first), &span(second), &[5], &SCORE]);
        }
    }
}

/// Wires whose parts are the first, the last and the one after it, in tables of one part, of two and of 32.
fn wires(all: &mut Streams) {
    for parts in [1, 2, 32] {
        let start = [&[1, 0][..], &good_row(INTEGRATOR).repeat(parts)].concat();
        let numbers = [0, parts as u8 - 1, parts as u8, 255];
        for source in numbers {
            for reader in numbers {
                all.add(&[&start, &[4, source, reader, 0], &[5], &SCORE]);
            }
        }
    }
}

/// Wanted steps at the edges of their range: where all are accepted, where some are, and where a part is always due.
fn wanted_steps(all: &mut Streams) {
    let edges = [1, 0, 1, 1_000_000_000, 1_000_000_001, 1, u32::MAX, 2, 0, 1, 999_999_999, 5];
    let score: Vec<u8> = edges.into_iter().flat_map(wanted).collect();
    let drive = [good_row(DRIVE), span(2), span(5)].concat();
    all.add(&[&[1, 0], &good_row(CONSTANT), &[5], &score]);
    all.add(&[&[1, 0], &drive, &[5], &score]);
    all.add(&[&[1, 0], &good_row(CONSTANT), &good_row(DELAY), &[4, 0, 1, 0], &[5], &score]);
}

/// Every cut of a stream with all commands.
fn cuts(drive: &[u8], all: &mut Streams) {
    let stream = [&[1, 0][..], &good_row(CONSTANT), drive, &[4, 0, 1, 0], &good_row(HOLD), &[5], &SCORE].concat();
    for length in 0..=stream.len() {
        all.add(&[&stream[..length]]);
    }
}

/// Every short sequence of commands after a start, whole and without its last byte.
fn sequences(start: &[u8], all: &mut Streams) {
    let commands: [&[u8]; 10] = [
        &[1, 0],
        &good_row(CONSTANT),
        &good_row(DRIVE),
        &span(3),
        &span(0),
        &[4, 0, 0, 0],
        &[5],
        &SCORE[..5],
        &[0],
        &[7],
    ];
    for first in commands {
        for second in commands {
            for third in commands {
                let sequence = [start, first, second, third].concat();
                all.add(&[&sequence]);
                all.add(&[&sequence[..sequence.len() - 1]]);
            }
        }
    }
}
