//! Streams that something is wrong with: damaged tables, single and double faults, commands in any order, noise.

use crate::draft::*;
use crate::generate::{mixed, score};
use crate::random::Random;
use crate::swept::good_operands;

/// A good table and score with one to three damages.
pub fn damaged(draft: &Draft, random: &mut Random) -> Vec<u8> {
    let mut commands = draft.commands(random);
    let table = commands.len();
    let steps = 1 + random.below(40);
    commands.extend(score_commands(draft, steps, random));
    for _ in 0..1 + random.below(3) {
        // Half of the damages fall into the table.
        let all = commands.len();
        let within = if random.once_in(2) { table.min(all) } else { all };
        let at = random.below(within);
        match random.below(9) {
            0 => commands.swap(at, random.below(all)),
            1 => commands.insert(at, commands[at].clone()),
            2 if commands.len() > 1 => drop(commands.remove(at)),
            3 => commands[at] = any_command(draft.rows.len(), random),
            4 => commands.insert(at, any_command(draft.rows.len(), random)),
            5 => commands.truncate(at + 1),
            6 => {
                let cut = random.below(commands[at].len().max(1));
                commands[at].truncate(cut);
                commands.truncate(at + 1);
            }
            _ => {
                let byte = random.below(commands[at].len().max(1));
                let value = any_byte(random);
                if let Some(place) = commands[at].get_mut(byte) {
                    *place = value;
                }
            }
        }
        if commands.is_empty() {
            break;
        }
    }
    let mut bytes = commands.concat();
    if random.once_in(8) && !bytes.is_empty() {
        bytes.remove(random.below(bytes.len()));
    }
    bytes
}

/// A byte: any, or one that means something somewhere.
fn any_byte(random: &mut Random) -> u8 {
    match random.below(3) {
        0 => random.byte(),
        1 => random.pick(&[0, 1, 2, 3, 4, 5, 6, 7, 8, 9, 10, 11, 12, 13, 15, 16, 31, 32, 33, 0x7F, 0x80, 0xFE, 0xFF]),
        _ => random.below(14) as u8,
    }
}

/// Numbers at the edges of the ranges.
fn edge(random: &mut Random) -> i64 {
    let billion = 1_000_000_000;
    match random.below(4) {
        0 => 0,
        1 => random.between(-9, 9),
        2 => random.pick(&[billion, -billion, billion + 1, -billion - 1, billion - 1]),
        _ => random.pick(&[i64::from(i32::MAX), i64::from(i32::MIN), -1, 1, 0x8000_0000]),
    }
}

/// A part command of any kind, unknown ones too, with at most one operand at an edge.
fn any_row(random: &mut Random) -> Row {
    let kind = random.pick(&[0, 1, 2, 3, 4, 5, 6, 7, 8, 9, 10, 11, 11, 11, 11, 12, 13, 255]);
    let mut operands = good_operands(kind);
    if random.once_in(2) {
        operands[random.below(3)] = edge(random);
    }
    let preference =
        if random.once_in(4) { random.pick(&[0, 1, 14, 15, 16, 17, 0x80, 0xFE, 0xFF]) } else { NO_PREFERENCE };
    let [a, b, p] = operands;
    Row { kind, preference, a: a as i32, b: b as i32, p: p as u32, spans: Vec::new() }
}

/// A command of any sort.
fn any_command(parts: usize, random: &mut Random) -> Vec<u8> {
    match random.below(12) {
        0 => vec![1, random.pick(&[0, 1, 15, 16, 0xFF])],
        1..=3 => any_row(random).bytes(),
        4..=6 => span(if random.once_in(3) { edge(random) as u32 } else { random.between(1, 20) as u32 }),
        7..=9 => {
            let parts = parts.max(1);
            let mut part =
                || if random.once_in(9) { random.pick(&[parts as u8, 31, 32, 255]) } else { random.below(parts) as u8 };
            let (source, reader) = (part(), part());
            vec![4, source, reader, random.pick(&[0, 0, 0, 0, 1, 1, 2, 255])]
        }
        10 => random.pick(&[&[5][..], &[6, 1, 0, 0, 0], &[6, 0, 0, 0, 0]]).to_vec(),
        _ => vec![random.pick(&[0, 7, 8, 0x10, 0x80, 0xFF, 5, 6])],
    }
}

/// Commands in any order, after Begin most of the time.
pub fn any_commands(random: &mut Random) -> Vec<u8> {
    let mut bytes = Vec::new();
    if !random.once_in(10) {
        bytes.extend([1, random.pick(&[0, 0, 1, 15])]);
    }
    let mut parts = 0;
    for _ in 0..random.below(60) {
        let command = any_command(parts, random);
        parts += usize::from(command[0] == 2);
        bytes.extend(command);
    }
    bytes
}

/// Bytes at random, small ones more often.
pub fn noise(random: &mut Random) -> Vec<u8> {
    let length = if random.once_in(8) { random.below(4) } else { random.below(200) };
    let start: &[u8] = random.pick(&[&[], &[1], &[1, 0], &[1, 0, 2], &[1, 0, 5], &[1, 0, 2, 11, 0xFF]]);
    let mut bytes = start.to_vec();
    bytes.extend((0..length).map(|_| any_byte(random)));
    bytes
}

/// A table's commands, each with its operands.
type Commands = Vec<Vec<u8>>;

/// The commands of a score, one by one.
fn score_commands(draft: &Draft, commands: usize, random: &mut Random) -> Commands {
    score(draft, commands, random).chunks(5).map(<[u8]>::to_vec).collect()
}

/// A table's commands without its End.
fn unended(draft: &Draft, random: &mut Random) -> Commands {
    let mut commands = draft.commands(random);
    commands.pop();
    commands
}

/// A table of one drive, whose spans are 10, 20 and so on.
fn one_drive(spans: u32) -> Draft {
    let mut draft = Draft::default();
    draft.add_drive(0, (1..=spans).map(|s| 10 * s).collect());
    draft
}

/// A good beginning of a table, then one command with one fault or two, then sometimes a cut.
pub fn at_fault(random: &mut Random) -> Vec<u8> {
    let draft = mixed(random);
    let commands = match random.below(17) {
        0 | 1 => part_too_many(draft, random),
        2 | 3 => bad_span(random),
        4 => span_out_of_place(random),
        5 | 6 => bad_wire(&draft, random),
        7 => bad_begin(&draft, random),
        // No parts.
        8 => vec![vec![1, random.below(16) as u8], vec![5]],
        9 | 10 => period_at_its_limit(random),
        11 | 12 => ring(random),
        13..=15 => operands_at_their_limits(&draft, random),
        _ => bad_score(&draft, random),
    };
    let mut bytes = commands.concat();
    if random.once_in(5) {
        let cut = 1 + random.below(16);
        bytes.truncate(bytes.len().saturating_sub(cut));
    } else if random.once_in(3) {
        bytes.extend([5, 6, 3, 0, 0, 0]);
    }
    bytes
}

/// A part too many, with or without another fault.
fn part_too_many(mut draft: Draft, random: &mut Random) -> Commands {
    while !draft.is_full(1) {
        let row = random.pick(&[CONSTANT, HOLD, DELAY, INTEGRATOR]);
        draft.add(row, 0, 0, 0);
    }
    let mut commands = unended(&draft, random);
    commands.push(any_row(random).bytes());
    commands
}

/// A ninth span, or another bad one.
fn bad_span(random: &mut Random) -> Commands {
    let spans = random.pick(&[8, 8, 7, 1, 0]);
    let mut commands = unended(&one_drive(spans), random);
    let before = i64::from(spans) * 10;
    let next = random.pick(&[before, before - 1, before + 1, 0, 1, 1_000_000_000, 1_000_000_001, 0xFFFF_FFFF]);
    commands.push(span(next.max(0) as u32));
    commands.push(vec![5]);
    commands
}

/// A span where none may be.
fn span_out_of_place(random: &mut Random) -> Commands {
    let mut commands = unended(&one_drive(random.below(3) as u32), random);
    let between = random.pick(&[&[4, 0, 0, 0][..], &[2, 6, 0xFF, 0, 0, 0, 0, 0, 0, 0, 0, 0, 0, 0, 0], &[1, 0]]);
    commands.push(between.to_vec());
    commands.push(span(random.pick(&[0, 1, 100])));
    commands
}

/// A wire that is unknown, taken, or both.
fn bad_wire(draft: &Draft, random: &mut Random) -> Commands {
    let parts = draft.rows.len() as u8;
    let mut commands = unended(draft, random);
    let (source, reader, port) = match draft.wires.len() {
        0 => (0, 0, 0),
        wires => draft.wires[random.below(wires)],
    };
    let mut wire = [4, source as u8, reader as u8, port];
    if random.once_in(2) {
        wire[1 + random.below(3)] = random.pick(&[parts, parts - 1, 32, 255, 0, 1, 2]);
    }
    commands.push(wire.to_vec());
    commands.push(vec![5]);
    commands
}

/// Another Begin, or none.
fn bad_begin(draft: &Draft, random: &mut Random) -> Commands {
    let mut commands = draft.commands(random);
    let e = random.pick(&[0, 15, 16, 0xFF]);
    match random.below(3) {
        0 => drop(commands.remove(0)),
        1 => commands[0] = vec![1, e],
        _ => commands.insert(1 + random.below(commands.len()), vec![1, e]),
    }
    commands
}

/// P at the edge of 10^18, sometimes with a loop, and sometimes of the last of 32 parts.
fn period_at_its_limit(random: &mut Random) -> Commands {
    let ratio = random.between(9, 15);
    let p = 10i64.pow(18 - ratio as u32) + random.between(-1, 1);
    let mut draft = Draft { magnitude: ratio as u8, ..Draft::default() };
    let full = random.once_in(4);
    while full && !draft.is_full(2) {
        draft.add(CONSTANT, 1, 0, 0);
    }
    let number = draft.add(random.pick(&[SQUARE, PULSE, DETECTOR]), 0, 0, p.clamp(1, 1_000_000_000) as u32);
    draft.rows[number].preference = 0;
    if !full && random.once_in(3) {
        let gain = draft.add(GAIN, 1, 0, 0);
        draft.wire(gain, gain, 0);
    }
    if !full && random.once_in(2) {
        draft.add(CONSTANT, 1, 0, 0);
        draft.renumber(random);
    }
    let mut commands = draft.commands(random);
    commands.extend(score_commands(&draft, 5, random));
    commands
}

/// A ring of parts, broken by a port that is not direct or not broken.
fn ring(random: &mut Random) -> Commands {
    let mut draft = Draft::default();
    let length = 1 + random.below(6);
    let kinds = [GAIN, ADDER, HOLD, SAMPLER, RESET, INTEGRATOR, DELAY, DETECTOR, DRIVE, CLAPPER];
    let breakable = random.once_in(2);
    for _ in 0..length {
        let kind = kinds[random.below(if breakable { kinds.len() } else { 5 })];
        draft.add(kind, 0, 0, u32::from(kind == DETECTOR));
    }
    for number in 0..length {
        let port = match draft.rows[number].kind {
            ADDER | SAMPLER => random.below(2) as u8,
            RESET => u8::from(!random.once_in(5)),
            _ => 0,
        };
        draft.wire((number + 1) % length, number, port);
    }
    let constant = draft.add(CONSTANT, 3, 0, 0);
    for (reader, port) in draft.open_ports() {
        draft.wire(constant, reader, port);
    }
    draft.renumber(random);
    let mut commands = draft.commands(random);
    commands.extend(score_commands(&draft, 8, random));
    commands
}

/// Numbers at the edges of their ranges in an otherwise good table, with the score of another.
fn operands_at_their_limits(other: &Draft, random: &mut Random) -> Commands {
    let mut commands = vec![vec![1, random.pick(&[0, 0, 1, 15, 16, 0xFF])]];
    commands.extend((0..1 + random.below(3)).map(|_| any_row(random).bytes()));
    commands.push(vec![5]);
    commands.extend(score_commands(other, 3, random));
    commands
}

/// A score that goes wrong.
fn bad_score(draft: &Draft, random: &mut Random) -> Commands {
    let mut commands = draft.commands(random);
    let steps = random.below(5);
    commands.extend(score_commands(draft, steps, random));
    commands.push(vec![any_byte(random)]);
    commands.push(score(draft, 1, random));
    commands
}
