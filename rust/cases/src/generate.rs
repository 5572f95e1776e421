//! Random cases with a purpose: tables in which something happens, and scores that let it happen.

mod full;
mod with_mass;

use crate::damage;
use crate::draft::*;
use crate::random::Random;

const BILLION: u64 = 1_000_000_000;

/// The stream of one case.
pub fn case(random: &mut Random) -> Vec<u8> {
    match random.below(200) {
        0..=127 => made(random),
        128 if random.once_in(6) => overlong(random),
        128..=187 => damaged(random),
        _ => noisy(random),
    }
}

/// A whole table and a score.
pub fn made(random: &mut Random) -> Vec<u8> {
    match random.below(128) {
        0..=95 => stream(&mixed(random), random),
        96..=103 => stream(&full::full(random), random),
        104..=113 => stream(&ladder(random), random),
        114..=119 => stream(&sharp(random), random),
        120..=122 => stream(&steep(random), random),
        _ => restless(random),
    }
}

/// A whole table and a score that something is wrong with, or a table with a command at fault.
pub fn damaged(random: &mut Random) -> Vec<u8> {
    if random.below(60) < 26 {
        return damage::at_fault(random);
    }
    let draft = match random.below(12) {
        0..=3 => ladder(random),
        4 => full::full(random),
        _ => mixed(random),
    };
    damage::damaged(&draft, random)
}

/// Commands in any order, or bytes.
pub fn noisy(random: &mut Random) -> Vec<u8> {
    if random.once_in(3) {
        damage::noise(random)
    } else {
        damage::any_commands(random)
    }
}

/// A table's bytes and a score's.
pub fn stream(draft: &Draft, random: &mut Random) -> Vec<u8> {
    let mut bytes = draft.commands(random).concat();
    let commands = match random.below(8) {
        0 => random.below(8),
        1 => 100 + random.below(300),
        _ => 5 + random.below(70),
    };
    bytes.extend(score(draft, commands, random));
    bytes
}

/// Wanted steps of the sizes that matter to the table's parts.
pub fn score(draft: &Draft, commands: usize, random: &mut Random) -> Vec<u8> {
    let mut telling = vec![1];
    for (number, row) in draft.rows.iter().enumerate() {
        let ratio = draft.ratio(number);
        let counts = row.spans.iter().copied().chain([row.p, 1]).filter(|&count| count > 0);
        telling.extend(counts.map(|count| u64::from(count).saturating_mul(ratio)).filter(|&w| w <= BILLION));
    }
    let largest = if random.once_in(4) { BILLION } else { random.pick(&telling) * 4 + 9 };
    let steady = random.once_in(4).then(|| random.pick(&telling));
    let mut bytes = Vec::with_capacity(5 * commands);
    for _ in 0..commands {
        let w = match random.below(64) {
            0..=3 => random.pick(&[BILLION, BILLION - 1, 1, 2]),
            4..=12 => random.between(1, 12) as u64,
            13..=22 => random.of_any_size(largest.min(BILLION)),
            23..=40 if steady.is_some() => steady.unwrap_or(1),
            23..=30 => random.pick(&telling) + random.pick(&telling),
            31..=40 => random.pick(&telling) * random.between(1, 5) as u64,
            _ => (random.pick(&telling) + random.below(3) as u64).max(2) - 1,
        };
        let refused = random.once_in(64).then(|| random.pick(&[0, BILLION + 1, 0x8000_0000, 0xFFFF_FFFF]));
        bytes.extend(wanted(refused.unwrap_or(w.min(BILLION)) as u32));
    }
    bytes
}

/// How large the numbers of a table are.
#[derive(Clone, Copy)]
struct Scale {
    value: i64,
    period: u64,
}

impl Scale {
    /// A scale, mostly a small one.
    fn any(random: &mut Random) -> Scale {
        match random.below(8) {
            0..=4 => Scale { value: 9, period: 12 },
            5 => Scale { value: 100, period: 300 },
            6 => Scale { value: 1_000_000, period: 100_000 },
            _ => Scale { value: BILLION as i64, period: BILLION },
        }
    }

    /// A value within the scale.
    fn value(self, random: &mut Random) -> i32 {
        random.between(-self.value, self.value) as i32
    }

    /// A value above 0.
    fn positive(self, random: &mut Random) -> i32 {
        random.between(1, self.value) as i32
    }

    /// A period within the scale.
    fn period(self, random: &mut Random) -> u32 {
        random.of_any_size(self.period) as u32
    }

    /// A detector's: small ones more often.
    fn tolerance(self, random: &mut Random) -> u32 {
        if random.once_in(2) {
            random.between(1, 4) as u32
        } else {
            self.period(random)
        }
    }

    /// The spans of a drive.
    fn spans(self, random: &mut Random) -> Vec<u32> {
        let mut spans: Vec<u32> = (0..random.below(8)).map(|_| self.period(random)).collect();
        if !random.once_in(4) {
            // Then the drive can always go on.
            spans.push(1);
        }
        spans.sort_unstable();
        spans.dedup();
        spans
    }
}

/// Groups of parts that work together, some parts at random, and some wires at random.
pub fn mixed(random: &mut Random) -> Draft {
    let mut draft = Draft::default();
    let scale = Scale::any(random);
    for _ in 0..1 + random.below(4) {
        group(&mut draft, scale, random);
    }
    let extra = [0, 0, 1, 3, 8, 24][random.below(6)];
    for _ in 0..extra {
        if !draft.is_full(1) {
            let kind = random.below(KINDS) as u8;
            any_part(&mut draft, kind, scale, random);
        }
    }
    join(&mut draft, random);
    prefer(&mut draft, random);
    if !random.once_in(3) {
        draft.renumber(random);
    }
    draft
}

/// Leaves ports open, or wires them to what is there: mostly backwards, so that few tables have a loop.
fn join(draft: &mut Draft, random: &mut Random) {
    let often = random.below(4);
    let loops = random.once_in(8);
    for (reader, port) in draft.open_ports() {
        if often == 0 || random.once_in(often + 1) {
            continue;
        }
        let direct = is_direct(draft.rows[reader].kind, port);
        let source = random.below(if direct && !loops { reader.max(1) } else { draft.rows.len() });
        // A delay that always reads something would not let time go on.
        let steady = !matches!(draft.rows[source].kind, PULSE | DETECTOR | SAMPLER | DELAY);
        if (direct && source == reader && !loops) || (draft.rows[reader].kind == DELAY && steady && !random.once_in(12))
        {
            continue;
        }
        draft.wire(source, reader, port);
    }
}

/// Gives magnitudes to the table and to some of its parts.
fn prefer(draft: &mut Draft, random: &mut Random) {
    let widest = random.pick(&[0, 0, 0, 1, 2, 2, 3, 4, 6, 9, 15]);
    let lowest = random.pick(&[0, 0, 0, 3]).min(15 - widest);
    draft.magnitude = (lowest + random.below(widest + 1)) as u8;
    let rare = 1 + random.below(5);
    for row in &mut draft.rows {
        if widest > 0 && !random.once_in(rare) || random.once_in(10) {
            row.preference = (lowest + random.below(widest + 1)) as u8;
        }
    }
}

/// Adds a part of a kind; its number.
fn any_part(draft: &mut Draft, kind: u8, scale: Scale, random: &mut Random) -> usize {
    let (a, b, p) = (scale.value(random), scale.value(random), scale.period(random));
    match kind {
        CONSTANT | GAIN | INTEGRATOR | RESET => draft.add(kind, a, 0, 0),
        SQUARE => draft.add(kind, a, b, p),
        CLAPPER => draft.add(kind, a, b, 0),
        PULSE => draft.add(kind, a, 0, p),
        DETECTOR => draft.add(kind, 0, 0, p),
        DRIVE => {
            let spans = scale.spans(random);
            draft.add_drive(a, spans)
        }
        _ => draft.add(kind, 0, 0, 0),
    }
}

/// Something to integrate or to sample.
fn source(draft: &mut Draft, scale: Scale, random: &mut Random) -> usize {
    let kind = random.pick(&[CONSTANT, CONSTANT, SQUARE, SQUARE, PULSE]);
    let number = any_part(draft, kind, scale, random);
    if kind == PULSE && random.once_in(2) {
        return draft.add_reading(number, HOLD, 0, 0);
    }
    number
}

/// Parts that integrate a source from the other side of 0.
fn integrator(draft: &mut Draft, scale: Scale, random: &mut Random) -> usize {
    let from = source(draft, scale, random);
    let kind = random.pick(&[INTEGRATOR, INTEGRATOR, RESET, DRIVE, CLAPPER]);
    let number = any_part(draft, kind, scale, random);
    if random.once_in(2) {
        let rate = draft.rows[from].a;
        draft.rows[number].a =
            (-i64::from(rate) * random.between(0, 6) - random.between(-1, 1)).clamp(-scale.value, scale.value) as i32;
    }
    draft.wire(from, number, 0);
    number
}

/// Some parts that work together.
fn group(draft: &mut Draft, scale: Scale, random: &mut Random) {
    if draft.is_full(8) {
        return;
    }
    match random.below(12) {
        0..=2 => watched(draft, scale, random),
        3 => sampled(draft, scale, random),
        4 => delayed(draft, scale, random),
        5 => to_and_fro(draft, scale, random),
        6 => switched(draft, scale, random),
        7 => seen_at_times(draft, scale, random),
        8 => at_zero(draft, random),
        9 | 10 => with_mass::clapping(draft, scale, random),
        _ => drives(draft, scale, random),
    }
}

/// A source into an integrator into a detector, and what follows from its mark.
fn watched(draft: &mut Draft, scale: Scale, random: &mut Random) {
    let level = integrator(draft, scale, random);
    let detector = draft.add_reading(level, DETECTOR, 0, scale.tolerance(random));
    match random.below(5) {
        0 => {
            let gain = draft.add_reading(detector, GAIN, scale.value(random), 0);
            draft.wire(gain, level, if draft.rows[level].kind == RESET { 1 } else { 0 });
        }
        1 => {
            let constant = draft.add(CONSTANT, scale.value(random), 0, 0);
            let sampler = draft.add_joining(SAMPLER, constant, detector);
            if draft.rows[level].kind == RESET {
                draft.wire(sampler, level, 1);
            }
        }
        2 => drop(draft.add_reading(detector, DELAY, 0, 0)),
        3 => drop(draft.add_reading(detector, HOLD, 0, 0)),
        _ => {}
    }
}

/// Samples of a moving number, held and added up.
fn sampled(draft: &mut Draft, scale: Scale, random: &mut Random) {
    let level = integrator(draft, scale, random);
    let pulse = any_part(draft, PULSE, scale, random);
    let sampler = draft.add_joining(SAMPLER, level, pulse);
    let hold = draft.add_reading(sampler, HOLD, 0, 0);
    draft.add_joining(ADDER, hold, level);
}

/// An event through a chain of delays.
fn delayed(draft: &mut Draft, scale: Scale, random: &mut Random) {
    let mut last = any_part(draft, PULSE, scale, random);
    for _ in 0..1 + random.below(4) {
        last = draft.add_reading(last, DELAY, 0, 0);
    }
    let kind = random.pick(&[ADDER, HOLD, RESET, GAIN]);
    let end = any_part(draft, kind, scale, random);
    draft.wire(last, end, if kind == RESET { 1 } else { 0 });
}

/// Two integrators that drive each other to and fro.
fn to_and_fro(draft: &mut Draft, scale: Scale, random: &mut Random) {
    let x = any_part(draft, random.pick(&[INTEGRATOR, RESET, DRIVE]), scale, random);
    let y = any_part(draft, INTEGRATOR, scale, random);
    let gain = draft.add(GAIN, random.pick(&[-1, -1, -2, 1]), 0, 0);
    draft.wire(y, x, 0);
    draft.wire(x, gain, 0);
    draft.wire(gain, y, 0);
    let tolerance = scale.tolerance(random);
    draft.add_reading(random.pick(&[x, y]), DETECTOR, 0, tolerance);
}

/// A detector on a source that switches or shows up at times only.
fn switched(draft: &mut Draft, scale: Scale, random: &mut Random) {
    let from = source(draft, scale, random);
    let gain = draft.add_reading(from, GAIN, scale.value(random), 0);
    let detector = draft.add_reading(gain, DETECTOR, 0, scale.tolerance(random));
    let level = draft.add_reading(from, RESET, scale.positive(random), 0);
    draft.wire(detector, level, 1);
}

/// A detector that reads something at times only, now on one side and now on the other.
fn seen_at_times(draft: &mut Draft, scale: Scale, random: &mut Random) {
    let kind = random.pick(&[SQUARE, SQUARE, INTEGRATOR]);
    let level = any_part(draft, kind, scale, random);
    let pulse = any_part(draft, PULSE, scale, random);
    if kind == SQUARE {
        (draft.rows[level].a, draft.rows[level].b) = (scale.positive(random), -scale.positive(random));
    } else {
        draft.wire(pulse, level, 0);
    }
    let sampler = draft.add_joining(SAMPLER, level, pulse);
    draft.add_reading(sampler, DETECTOR, 0, scale.tolerance(random));
}

/// A level that comes to exactly zero, or starts there, rests there or not, and goes back or through: with a detector
/// on it, and mostly one on its mirror image.
fn at_zero(draft: &mut Draft, random: &mut Random) {
    let (rate, ticks) = (random.between(1, 3) as i32, random.between(1, 5) as u32);
    let (rests, back, starts) = (random.once_in(2), random.once_in(2), random.once_in(4));
    // Its rates in turn, for so many ticks each.
    let second = if rests { 0 } else { random.pick(&[-rate, rate]) };
    let (first, second) = if starts { (second, -rate) } else { (-rate, second) };
    let mut push = draft.add(SQUARE, first, second, ticks);
    if rests && back {
        let other = draft.add(SQUARE, 0, 2 * rate, 2 * ticks);
        push = draft.add_joining(ADDER, push, other);
    }
    let start = if starts { 0 } else { rate * ticks as i32 };
    let level = draft.add_reading(push, INTEGRATOR, start, 0);
    draft.add_reading(level, DETECTOR, 0, random.between(1, 4) as u32);
    if !random.once_in(4) {
        let mirrored = draft.add_reading(level, GAIN, -1, 0);
        draft.add_reading(mirrored, DETECTOR, 0, random.between(1, 4) as u32);
    }
}

/// Drives after one source.
fn drives(draft: &mut Draft, scale: Scale, random: &mut Random) {
    let from = source(draft, scale, random);
    let common = scale.spans(random);
    for _ in 0..1 + random.below(3) {
        let mut spans = scale.spans(random);
        spans.extend(common.iter().filter(|_| random.once_in(2)));
        spans.sort_unstable();
        spans.dedup();
        spans.truncate(8);
        let drive = draft.add_drive(scale.value(random), spans);
        draft.wire(from, drive, 0);
    }
}

/// Spans of a drive with this number: of each two neighbouring rungs at least one, and of 16 at most eight; sometimes
/// one less, or the lowest too.
fn every_other(rungs: &[u32], number: usize, random: &mut Random) -> Vec<u32> {
    let mut spans: Vec<u32> = rungs.chunks(2).take(8).map(|pair| pair[number % 2 % pair.len()]).collect();
    if random.once_in(3) {
        let at = random.below(spans.len());
        spans.remove(at);
    }
    if random.once_in(3) {
        spans.extend(rungs.first());
        spans.sort_unstable();
        spans.dedup();
        spans.truncate(8);
    }
    spans
}

/// Drives whose spans alternate, so that each round takes back a little, and sometimes a detector that halves.
pub fn ladder(random: &mut Random) -> Draft {
    let mut draft = Draft::default();
    let scale = Scale::any(random);
    let high = if random.once_in(3) { BILLION } else { 100 };
    let mut rungs: Vec<u32> = (0..17).map(|_| random.of_any_size(high) as u32).collect();
    rungs.sort_unstable();
    rungs.dedup();
    let from = source(&mut draft, scale, random);
    let crowd = random.pick(&[2, 2, 3, 5, 8, 30]);
    for number in 0..crowd {
        let spans = every_other(&rungs, number, random);
        let drive = draft.add_drive(scale.value(random), spans);
        if random.once_in(2) {
            draft.wire(from, drive, 0);
        }
        if draft.is_full(2) {
            break;
        }
    }
    if random.once_in(2) && !draft.is_full(1) {
        let detector = draft.add(DETECTOR, 0, 0, random.between(1, 9) as u32);
        let watched = random.below(detector);
        draft.wire(watched, detector, 0);
    }
    if random.once_in(3) {
        prefer(&mut draft, random);
    }
    if random.once_in(2) {
        draft.renumber(random);
    }
    draft
}

/// A number that crosses 0 after a few ticks and is sent back when a detector with a small tolerance finds it.
fn crossing(draft: &mut Draft, random: &mut Random) {
    let rate = random.between(1, 3) as i32 * random.pick(&[1, -1]);
    let constant = draft.add(CONSTANT, rate, 0, 0);
    let furthest = random.pick(&[1, 3, 1000]);
    let ticks = random.of_any_size(furthest) as i32;
    let level = draft.add_reading(constant, random.pick(&[INTEGRATOR, RESET, CLAPPER]), -rate * ticks, 0);
    let detector = draft.add_reading(level, DETECTOR, 0, random.between(1, 3) as u32);
    if draft.rows[level].kind == RESET {
        let far = -rate * random.between(0, 50) as i32;
        let back = if random.once_in(4) {
            // Each mark sends it across again, up to the last microstep.
            draft.add(GAIN, far, 0, 0)
        } else {
            let place = draft.add(CONSTANT, far, 0, 0);
            draft.add_reading(place, SAMPLER, 0, 0)
        };
        draft.wire(detector, back, u8::from(draft.rows[back].kind == SAMPLER));
        draft.wire(back, level, 1);
    }
}

/// Crossings soon after the start: wanted steps of 10^9 are halved 29 times.
fn sharp(random: &mut Random) -> Draft {
    let mut draft = Draft::default();
    for _ in 0..1 + random.below(4) {
        crossing(&mut draft, random);
    }
    for kind in [PULSE, SQUARE] {
        if random.once_in(3) {
            draft.add(kind, 1, 0, random.of_any_size(BILLION) as u32);
        }
    }
    if random.once_in(4) {
        prefer(&mut draft, random);
    }
    if random.once_in(2) {
        draft.renumber(random);
    }
    draft
}

/// As many rounds as drives can ask for, and then as many revisions as are left: spans of drives that count slowly
/// alternate down from 10^9, and once they agree a detector halves what they leave.
fn steep(random: &mut Random) -> Draft {
    let slow = random.between(3, 7) as u8;
    let lowest = random.pick(&[0, 0, 1, 8]);
    let mut draft = Draft { magnitude: lowest + slow, ..Draft::default() };
    crossing(&mut draft, random);
    let high = 10i64.pow(9 - u32::from(slow));
    let mut rungs: Vec<u32> = (0..40).map(|_| random.between(high / 2, high - 1) as u32).collect();
    rungs.sort_unstable();
    rungs.dedup();
    rungs.truncate(15);
    for number in 0..2 + random.below(3) {
        let spans = rungs.iter().enumerate().filter(|&(at, _)| at == 0 || at % 2 == number % 2).map(|(_, &rung)| rung);
        let drive = draft.add_drive(1, spans.take(8).collect());
        draft.rows[drive].preference = lowest;
    }
    if random.once_in(2) {
        draft.renumber(random);
    }
    draft
}

/// Parts that stay due up to the last microstep or nearly so, and a score of more than a thousand commands.
fn restless(random: &mut Random) -> Vec<u8> {
    let mut draft = Draft::default();
    let scale = Scale::any(random);
    if random.once_in(2) {
        microsteps(&mut draft, random);
    } else {
        let from = match random.below(4) {
            0 => draft.add(CONSTANT, scale.value(random), 0, 0),
            1 => any_part(&mut draft, SQUARE, scale, random),
            2 => integrator(&mut draft, scale, random),
            // An event that a delay feeds back to itself.
            _ => any_part(&mut draft, PULSE, scale, random),
        };
        let adder = draft.add(ADDER, 0, 0, 0);
        let delay = draft.add(DELAY, 0, 0, 0);
        draft.wire(from, adder, 0);
        draft.wire(delay, adder, 1);
        draft.wire(adder, delay, 0);
        if random.once_in(2) {
            let detector = draft.add(DETECTOR, 0, 0, 1);
            let gain = draft.add(GAIN, random.pick(&[-1, -2, 3]), 0, 0);
            draft.wire(delay, gain, 0);
            draft.wire(gain, detector, 0);
        }
    }
    if random.once_in(2) {
        draft.renumber(random);
    }
    let mut bytes = draft.commands(random).concat();
    let commands = 1060 + random.below(100);
    bytes.extend(score(&draft, commands, random));
    bytes
}

/// A detector that its own marks switch to and fro at every microstep, while a number counts them, until that number
/// stops the switching: at the last microstep or close to it. There a drive may then accept nothing.
fn microsteps(draft: &mut Draft, random: &mut Random) {
    let detector = draft.add(DETECTOR, 0, 0, 1);
    let shown = draft.add_reading(detector, HOLD, 0, 0);
    let swing = random.between(990, 1001) as i32;
    let push = draft.add_reading(shown, GAIN, -swing, 0);
    // The count: one more than it was at the point before, whenever a mark was shown there.
    let count = draft.add(RESET, 0, 0, 0);
    let counted = draft.add_joining(SAMPLER, count, detector);
    let before = draft.add_reading(counted, DELAY, 0, 0);
    let one = draft.add(CONSTANT, 1, 0, 0);
    let more = draft.add_joining(SAMPLER, one, before);
    let sum = draft.add_joining(ADDER, before, more);
    draft.wire(sum, count, 1);
    // What the detector sees; the square gives the first push.
    let period = random.between(2, 6) as u32;
    let first = random.pick(&[1, -1, -1]);
    let start = draft.add(SQUARE, first, -first, period);
    let bias = draft.add_joining(ADDER, start, count);
    let level = draft.add_joining(ADDER, bias, push);
    draft.wire(level, detector, 0);
    if !random.once_in(3) {
        draft.add_drive(0, vec![period, period + 3]);
    }
}

/// More bytes than the program reads, cut within a command or between two.
fn overlong(random: &mut Random) -> Vec<u8> {
    let mut draft = Draft::default();
    for _ in 0..1 + random.below(4) {
        any_part(
            &mut draft,
            random.pick(&[CONSTANT, SQUARE, DRIVE, INTEGRATOR]),
            Scale { value: 9, period: 12 },
            random,
        );
    }
    // All other commands of a table have a length of 5 × k, or there are three bytes of them: wires move the score.
    join(&mut draft, random);
    let mut bytes = draft.commands(random).concat();
    bytes.extend(score(&draft, 13_200, random));
    bytes.truncate(65_534 + random.below(10));
    bytes
}
