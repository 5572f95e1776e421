//! Ways to alter a sound model: into one that no run reaches, into one that is unsound, or into either.

use crate::words::*;
use cases::draft::{self, PORTS};
use cases::random::Random;

pub const LAST_TICK: u64 = 1_000_000_000_000_000_000;
pub const BILLION: u64 = 1_000_000_000;

/// What an altered model is.
#[derive(Clone, Copy, PartialEq, Eq)]
pub enum Then {
    Sound,
    Unsound,
    Either,
}

/// A name, what the altered model is, and the alteration, which answers false where the model has nothing to alter.
pub type Sort = (&'static str, Then, fn(&mut Words, &mut Random) -> bool);

/// How many of the sorts, the first ones, are sound.
pub const SOUND: usize = 12;

pub const SORTS: &[Sort] = &[
    ("as it was", Then::Sound, |_, _| true),
    ("any tick", Then::Sound, |words, random| at_tick(words, random.of_any_size(LAST_TICK))),
    ("near the last tick", Then::Sound, |words, random| {
        let left = random.pick(&[10, 1000, BILLION, BILLION, 2 * BILLION]);
        at_tick(words, LAST_TICK - random.of_any_size(left))
    }),
    ("where a period ends, near the last tick", Then::Sound, |words, random| {
        let Some(part) = some_part(words, random, |part| names(part[KIND], 2)) else { return false };
        let period = words.part(part)[P] * words.part(part)[RATIO];
        words.0[N] = random.below(3) as u64;
        at_tick(words, (LAST_TICK - random.of_any_size(2 * BILLION)) / period * period)
    }),
    ("the last tick", Then::Sound, |words, random| {
        words.0[N] = random.below(1000) as u64;
        at_tick(words, LAST_TICK)
    }),
    ("the last point", Then::Sound, |words, _| {
        words.0[N] = 999;
        at_tick(words, LAST_TICK)
    }),
    ("near the last microstep", Then::Sound, |words, random| {
        words.0[N] = 999 - random.below(4) as u64;
        true
    }),
    ("near the last microstep, due", Then::Sound, |words, random| {
        let Some(part) = some_part(words, random, |part| part[KIND] == 8) else { return false };
        words.part_mut(part)[MARK] = 1 + random.below(2) as u64;
        words.0[N] = 999 - random.below(3) as u64;
        !random.once_in(2) || at_tick(words, LAST_TICK - random.of_any_size(BILLION))
    }),
    ("any state", Then::Sound, |words, random| {
        for number in 0..words.count() {
            let part = words.part_mut(number);
            part[HELD] = value(random);
            part[SPEED] = if part[KIND] == 12 { value(random) } else { 0 };
            for signal in [SIGNAL, OUTPUT] {
                part[signal] = random.below(2) as u64;
                part[signal + 1] = if part[signal] == 1 { value(random) } else { 0 };
            }
            (part[SIDE], part[MARK]) = (random.below(3) as u64, random.below(3) as u64);
        }
        true
    }),
    ("another speed of a clapper", Then::Sound, |words, random| {
        let Some(clapper) = some_part(words, random, |part| part[KIND] == 12) else { return false };
        set(&mut words.part_mut(clapper)[SPEED], value(random))
    }),
    ("a clapper near an end of its speed", Then::Sound, |words, random| {
        let Some(clapper) = some_part(words, random, |part| part[KIND] == 12 && part[PORT] > 0) else { return false };
        let sign = random.pick(&[1, -1]);
        let mut near = |end: i64| (sign * (end + random.between(0, 9))) as u64;
        // One local tick takes the speed to its end, and the position from the other end to the middle.
        let (held, speed, x) = (near(-(BILLION as i64)), near(BILLION as i64 - 9), near(100));
        let part = words.part_mut(clapper);
        (part[HELD], part[SPEED]) = (held, speed);
        let source = part[PORT] as usize - 1;
        words.part_mut(source)[OUTPUT..][..2].copy_from_slice(&[1, x]);
        true
    }),
    ("other magnitudes", Then::Sound, |words, random| {
        words.0[MAGNITUDE] = random.below(16) as u64;
        for number in 0..words.count() {
            words.part_mut(number)[PREFERENCE] =
                if random.once_in(3) { NO_PREFERENCE } else { random.below(16) as u64 };
        }
        fit_ratios(words) && (0..words.count()).all(|number| has_period(words.part(number)))
    }),
    ("no parts", Then::Unsound, |words, _| set(&mut words.0[COUNT], 0)),
    ("33 parts", Then::Unsound, |words, _| set(&mut words.0[COUNT], 33)),
    ("a huge count of parts", Then::Unsound, |words, random| {
        let count = words.0[COUNT];
        set(&mut words.0[COUNT], random.pick(&[count + 256, count + 65_536, count + (1 << 32), 64, 1 << 63, u64::MAX]))
    }),
    ("another count of parts", Then::Either, |words, random| set(&mut words.0[COUNT], 1 + random.below(32) as u64)),
    ("more than 8 spans", Then::Unsound, |words, random| {
        let Some(drive) = some_part(words, random, |part| part[KIND] == 11) else { return false };
        let spans = words.part(drive)[SPAN_COUNT];
        let many = [9, 10, 25, 256 + spans, 65_536 + spans, (1 << 32) + spans, 1 << 63, u64::MAX];
        set(&mut words.part_mut(drive)[SPAN_COUNT], random.pick(&many))
    }),
    ("spans of a part that is no drive", Then::Unsound, |words, random| {
        let Some(part) = some_part(words, random, |part| part[KIND] != 11) else { return false };
        put_spans(words, part, 1 + random.below(8) as u64);
        !random.once_in(4) || set(&mut words.part_mut(part)[SPAN_COUNT], random.pick(&[9, 1 << 32, u64::MAX]))
    }),
    ("equal spans", Then::Unsound, |words, random| {
        let Some((drive, spans)) = drive_with_spans(words, random, 2) else { return false };
        let at = 1 + random.below(spans - 1);
        words.part_mut(drive)[FIRST_SPAN + at] = words.part(drive)[FIRST_SPAN + at - 1];
        true
    }),
    ("falling spans", Then::Unsound, |words, random| {
        let Some((drive, spans)) = drive_with_spans(words, random, 2) else { return false };
        let at = FIRST_SPAN + random.below(spans - 1);
        words.part_mut(drive).swap(at, at + 1);
        true
    }),
    ("a span of 0", Then::Unsound, |words, random| {
        let Some((drive, _)) = drive_with_spans(words, random, 1) else { return false };
        set(&mut words.part_mut(drive)[FIRST_SPAN], 0)
    }),
    ("a span above 10^9", Then::Unsound, |words, random| {
        let Some((drive, spans)) = drive_with_spans(words, random, 1) else { return false };
        let large = random.pick(&[BILLION + 1, 1 << 31, 0xFFFF_FFFF]);
        set(&mut words.part_mut(drive)[FIRST_SPAN + spans - 1], large)
    }),
    ("a source that is not there", Then::Unsound, |words, random| {
        let Some(part) = some_part(words, random, |part| ports(part[KIND]) > 0) else { return false };
        let (count, port) = (words.0[COUNT], random.below(ports(words.part(part)[KIND])));
        let there = random.below(count as usize) as u64;
        let source = random.pick(&[count, 32, 33, 255, 256 + there, 512 + there, 32_768 + there, 65_535]);
        set(&mut words.part_mut(part)[PORT + port], source + 1)
    }),
    ("a source at a port that the kind has not", Then::Unsound, |words, random| {
        let Some(part) = some_part(words, random, |part| ports(part[KIND]) < 2) else { return false };
        let port = ports(words.part(part)[KIND]) + random.below(2);
        let source = random.below(words.count()) as u64;
        set(&mut words.part_mut(part)[PORT + port.min(1)], source + 1)
    }),
    ("a part twice in the order", Then::Unsound, |words, random| {
        let count = words.count();
        if count < 2 {
            return false;
        }
        let at = random.below(count);
        let other = (at + 1 + random.below(count - 1)) % count;
        words.0[ORDER + at] = words.0[ORDER + other];
        true
    }),
    ("an unknown part in the order", Then::Unsound, |words, random| {
        let (count, at) = (words.0[COUNT], ORDER + random.below(words.count()));
        let own = words.0[at];
        set(&mut words.0[at], random.pick(&[count, 32, 255, 256 + own, 512 + own, 32_768 + own, 65_535]))
    }),
    ("an order that is not lowest first", Then::Unsound, |words, random| {
        let count = words.count();
        let free: Vec<usize> = (1..count)
            .filter(|&at| !direct_sources(words, words.0[ORDER + at] as usize).contains(&words.0[ORDER + at - 1]))
            .collect();
        if free.is_empty() {
            return false;
        }
        let at = ORDER + random.pick(&free);
        words.0.swap(at - 1, at);
        true
    }),
    ("an order with a source behind", Then::Unsound, |words, random| {
        let at = ORDER + random.below(words.count());
        let sources = direct_sources(words, words.0[at] as usize);
        if sources.is_empty() {
            return false;
        }
        let source = random.pick(&sources);
        let Some(before) = (ORDER..at).find(|&before| words.0[before] == source) else { return false };
        words.0.swap(before, at);
        true
    }),
    ("another order", Then::Unsound, |words, random| {
        let count = words.count();
        let own = words.0[ORDER..][..count].to_vec();
        random.shuffle(&mut words.0[ORDER..][..count]);
        own != words.0[ORDER..][..count]
    }),
    ("a loop of one part", Then::Unsound, |words, random| {
        let Some((part, port)) = direct_port(words, random) else { return false };
        words.part_mut(part)[PORT + port] = part as u64 + 1;
        true
    }),
    ("a loop of two parts", Then::Unsound, |words, random| {
        let Some((one, port)) = direct_port(words, random) else { return false };
        let Some((other, other_port)) = direct_port(words, random) else { return false };
        words.part_mut(one)[PORT + port] = other as u64 + 1;
        words.part_mut(other)[PORT + other_port] = one as u64 + 1;
        one != other
    }),
    ("another wire", Then::Either, |words, random| {
        let Some(part) = some_part(words, random, |part| ports(part[KIND]) > 0) else { return false };
        let port = random.below(ports(words.part(part)[KIND]));
        let source = random.below(words.count() + 1) as u64;
        set(&mut words.part_mut(part)[PORT + port], source)
    }),
    ("a wrong ratio", Then::Unsound, |words, random| {
        let (number, t) = (random.below(words.count()), words.0[T]);
        let part = words.part_mut(number);
        let own = part[RATIO];
        let other = [0, 1, 10, 1000, own * 10, own / 10, own + 1, own - 1, own + (1 << 32), 1 << 63, u64::MAX];
        let other = random.pick(&other);
        part[LOCAL] = t.checked_div(other).unwrap_or(part[LOCAL]);
        set(&mut part[RATIO], other)
    }),
    ("a wrong local count", Then::Unsound, |words, random| {
        let number = random.below(words.count());
        let part = words.part_mut(number);
        let own = part[LOCAL];
        let mut other = vec![own + 1, own.wrapping_sub(1), 0, own + (1 << 32), 1 << 63, u64::MAX];
        if part[RATIO].is_multiple_of(2) {
            // Times the ratio it is the same modulo 2^64.
            other.push(own + (1 << (64 - part[RATIO].trailing_zeros())));
        }
        set(&mut part[LOCAL], random.pick(&other))
    }),
    ("t above 10^18", Then::Unsound, |words, random| {
        let far = random.of_any_size(u64::MAX / 2);
        at_tick(words, LAST_TICK + random.pick(&[1, 2, BILLION, (1 << 63) - LAST_TICK, u64::MAX - LAST_TICK, far]))
    }),
    ("t without its local counts", Then::Unsound, |words, random| {
        let any = random.of_any_size(LAST_TICK);
        words.0[T] = random.pick(&[any, words.0[T] + 1, words.0[T].saturating_sub(1), 0, LAST_TICK]);
        (0..words.count()).any(|number| words.0[T] / words.part(number)[RATIO] != words.part(number)[LOCAL])
    }),
    ("n above 999", Then::Unsound, |words, random| {
        let n = words.0[N];
        set(&mut words.0[N], random.pick(&[1000, 1001, 65_535, 65_536 + n, (1 << 32) + n, 1 << 63, u64::MAX]))
    }),
    ("a held number out of range", Then::Unsound, |words, random| {
        let number = random.below(words.count());
        set(&mut words.part_mut(number)[HELD], no_value(random))
    }),
    ("a clapper's speed out of range", Then::Unsound, |words, random| {
        let Some(clapper) = some_part(words, random, |part| part[KIND] == 12) else { return false };
        set(&mut words.part_mut(clapper)[SPEED], no_value(random))
    }),
    ("a speed of a part that is no clapper", Then::Unsound, |words, random| {
        let Some(part) = some_part(words, random, |part| part[KIND] != 12) else { return false };
        set(&mut words.part_mut(part)[SPEED], not_zero(random))
    }),
    ("a held signal out of range", Then::Unsound, |words, random| {
        let number = random.below(words.count());
        words.part_mut(number)[SIGNAL..SIGNAL + 2].copy_from_slice(&[1, no_value(random)]);
        true
    }),
    ("an output out of range", Then::Unsound, |words, random| {
        let number = random.below(words.count());
        words.part_mut(number)[OUTPUT..OUTPUT + 2].copy_from_slice(&[1, no_value(random)]);
        true
    }),
    ("operand a out of range", Then::Unsound, |words, random| {
        let Some(part) = some_part(words, random, |part| names(part[KIND], 0)) else { return false };
        set(&mut words.part_mut(part)[A], no_value(random))
    }),
    ("operand b out of range", Then::Unsound, |words, random| {
        let Some(part) = some_part(words, random, |part| names(part[KIND], 1)) else { return false };
        set(&mut words.part_mut(part)[B], no_value(random))
    }),
    ("operand p out of range", Then::Unsound, |words, random| {
        let Some(part) = some_part(words, random, |part| names(part[KIND], 2)) else { return false };
        set(&mut words.part_mut(part)[P], random.pick(&[0, BILLION + 1, 1 << 31, 0xFFFF_FFFF]))
    }),
    ("operand a that is not named", Then::Unsound, |words, random| {
        let Some(part) = some_part(words, random, |part| !names(part[KIND], 0)) else { return false };
        set(&mut words.part_mut(part)[A], not_zero(random))
    }),
    ("operand b that is not named", Then::Unsound, |words, random| {
        let Some(part) = some_part(words, random, |part| !names(part[KIND], 1)) else { return false };
        set(&mut words.part_mut(part)[B], not_zero(random))
    }),
    ("operand p that is not named", Then::Unsound, |words, random| {
        let Some(part) = some_part(words, random, |part| !names(part[KIND], 2)) else { return false };
        set(&mut words.part_mut(part)[P], random.pick(&[1, 2, 65_536, BILLION, 0xFFFF_FFFF]))
    }),
    ("a preference out of range", Then::Unsound, |words, random| {
        let number = random.below(words.count());
        let any = random.between(16, 254) as u64;
        words.part_mut(number)[PREFERENCE] = random.pick(&[16, 17, 31, 128, 254, any]);
        if random.once_in(2) {
            fit_ratios(words);
        }
        true
    }),
    ("a magnitude out of range", Then::Unsound, |words, random| {
        let any = random.between(16, 255) as u64;
        words.0[MAGNITUDE] = random.pick(&[16, 16, 17, 31, 128, 254, 255, any]);
        if random.once_in(2) {
            fit_ratios(words);
        }
        true
    }),
    ("a magnitude or preference without its ratios", Then::Either, |words, random| {
        let number = random.below(words.count());
        match random.below(3) {
            0 => set(&mut words.0[MAGNITUDE], random.below(16) as u64),
            1 => set(&mut words.part_mut(number)[PREFERENCE], random.below(16) as u64),
            _ => set(&mut words.part_mut(number)[PREFERENCE], NO_PREFERENCE),
        }
    }),
    ("P above 10^18", Then::Unsound, |words, random| {
        let Some(part) = some_part(words, random, |part| names(part[KIND], 2)) else { return false };
        let preference = random.below(6) as u32;
        let least = 10u64.pow(3 + preference) + 1;
        words.0[MAGNITUDE] = 15;
        for number in 0..words.count() {
            // The other parts' periods stay small enough.
            words.part_mut(number)[PREFERENCE] = NO_PREFERENCE;
        }
        words.part_mut(part)[PREFERENCE] = preference.into();
        let any = random.between(least as i64, BILLION as i64) as u64;
        words.part_mut(part)[P] = random.pick(&[least, BILLION, any]);
        fit_ratios(words)
    }),
    ("another kind", Then::Either, |words, random| {
        let number = random.below(words.count());
        set(&mut words.part_mut(number)[KIND], random.below(KINDS) as u64)
    }),
    ("another bit", Then::Either, |words, random| {
        let at = word_in_use(words, random);
        words.0[at] ^= 1 << random.below(64);
        true
    }),
    ("another word", Then::Either, |words, random| {
        let at = word_in_use(words, random);
        set(&mut words.0[at], any_word(random))
    }),
    ("two faults or more", Then::Either, |words, random| {
        for _ in 0..2 + random.below(3) {
            // Unlike the others these leave the count alone, which tells how much there is to alter.
            let part = random.below(words.count());
            let at = random.below(PART_WORDS);
            words.part_mut(part)[at] = any_word(random);
        }
        true
    }),
    ("noise", Then::Unsound, |words, random| {
        let any = 1 + random.below(32) as u64;
        let count = random.pick(&[words.0[COUNT], 1, any]);
        *words = noise(random);
        words.0[COUNT] = count;
        !words.model().is_some_and(|model| model.sound())
    }),
];

/// Words of all sizes.
pub fn noise(random: &mut Random) -> Words {
    Words(std::array::from_fn(|_| any_word(random)))
}

/// Any number of 64 bits.
pub fn any(random: &mut Random) -> u64 {
    (random.below(1 << 32) as u64) << 32 | random.below(1 << 32) as u64
}

/// A word of any size, small ones often.
pub fn any_word(random: &mut Random) -> u64 {
    match random.below(8) {
        0 | 1 => random.below(4) as u64,
        2 => random.below(40) as u64,
        3 => {
            random.pick(&[255, 256, 65_535, 65_536, BILLION, BILLION + 1, LAST_TICK, LAST_TICK + 1, 1 << 63, u64::MAX])
        }
        4 => (random.between(-9, 9)) as u64,
        5 => value(random),
        _ => any(random) >> random.below(64),
    }
}

/// Puts another number in a place; false if it was there.
fn set(place: &mut u64, number: u64) -> bool {
    let other = *place != number;
    *place = number;
    other
}

/// Moves a model to a tick, and its local counts with it.
fn at_tick(words: &mut Words, t: u64) -> bool {
    words.0[T] = t;
    for number in 0..words.count() {
        let part = words.part_mut(number);
        part[LOCAL] = t / part[RATIO];
    }
    true
}

/// Gives the ratios that the magnitudes ask for, and local counts to them; false if one is above 2^64.
fn fit_ratios(words: &mut Words) -> bool {
    let preferences = (0..words.count()).map(|number| words.part(number)[PREFERENCE]);
    let magnitude = preferences.filter(|&own| own != NO_PREFERENCE).fold(words.0[MAGNITUDE], u64::max);
    let mut fits = true;
    for number in 0..words.count() {
        let part = words.part_mut(number);
        let apart = if part[PREFERENCE] == NO_PREFERENCE { 0 } else { magnitude - part[PREFERENCE] };
        match 10u64.checked_pow(apart as u32) {
            Some(ratio) => part[RATIO] = ratio,
            None => fits = false,
        }
    }
    at_tick(words, words.0[T]) && fits
}

/// Whether a part that names p has a period that is not beyond the last tick.
fn has_period(part: &[u64]) -> bool {
    !names(part[KIND], 2) || part[P].checked_mul(part[RATIO]).is_some_and(|period| period <= LAST_TICK)
}

/// A value, at the ends of the range more often.
fn value(random: &mut Random) -> u64 {
    let end = BILLION as i64;
    match random.below(4) {
        0 => random.pick(&[0, 1, -1, end, -end, end - 1, 1 - end]) as u64,
        1 => random.between(-9, 9) as u64,
        _ => random.between(-end, end) as u64,
    }
}

/// A number that is no value. Some are one in their lowest 32 bits.
fn no_value(random: &mut Random) -> u64 {
    let end = BILLION as i64;
    let small = random.between(-9, 9);
    let large = random.between(end + 1, i64::MAX / 2);
    random.pick(&[
        end + 1,
        -end - 1,
        i64::from(i32::MAX),
        i64::from(i32::MIN),
        (1 << 32) + small,
        small - (1 << 32),
        i64::MAX,
        i64::MIN,
        large,
        -large,
    ]) as u64
}

/// A number other than 0.
fn not_zero(random: &mut Random) -> u64 {
    random.pick(&[1, -1, 2, BILLION as i64, BILLION as i64 + 1, 1 << 32, i64::MIN, i64::MAX, 1 << 16]) as u64
}

/// How many ports a kind has.
fn ports(kind: u64) -> usize {
    PORTS[kind as usize].into()
}

/// Whether a kind names an operand: 0 is a, 1 is b, 2 is p.
fn names(kind: u64, operand: usize) -> bool {
    u8::try_from(kind).is_ok_and(|kind| draft::names(kind)[operand])
}

/// Whether a kind's output reads a port within a point.
fn is_direct(kind: u64, port: usize) -> bool {
    draft::is_direct(kind as u8, port as u8)
}

/// The sources at a part's direct ports.
fn direct_sources(words: &Words, number: usize) -> Vec<u64> {
    let part = words.part(number);
    let wired = (0..2).filter(|&port| is_direct(part[KIND], port) && part[PORT + port] > 0);
    wired.map(|port| part[PORT + port] - 1).collect()
}

/// A part with a direct port, and the port.
fn direct_port(words: &Words, random: &mut Random) -> Option<(usize, usize)> {
    let part = some_part(words, random, |part| is_direct(part[KIND], 0) || is_direct(part[KIND], 1))?;
    let port = random.below(2);
    Some((part, if is_direct(words.part(part)[KIND], port) { port } else { 1 - port }))
}

/// A part that has what is asked.
fn some_part(words: &Words, random: &mut Random, has: impl Fn(&[u64]) -> bool) -> Option<usize> {
    let parts: Vec<usize> = (0..words.count()).filter(|&number| has(words.part(number))).collect();
    (!parts.is_empty()).then(|| random.pick(&parts))
}

/// Gives a part rising spans.
fn put_spans(words: &mut Words, part: usize, spans: u64) {
    let part = words.part_mut(part);
    part[SPAN_COUNT] = spans;
    for at in 0..spans {
        part[FIRST_SPAN + at as usize] = 3 * at + 1;
    }
}

/// A drive with at least so many spans, and how many it has; it may be given new ones.
pub fn drive_with_spans(words: &mut Words, random: &mut Random, least: u64) -> Option<(usize, usize)> {
    let drive = some_part(words, random, |part| part[KIND] == 11)?;
    if words.part(drive)[SPAN_COUNT] < least {
        put_spans(words, drive, least + random.below(9 - least as usize) as u64);
    }
    Some((drive, words.part(drive)[SPAN_COUNT] as usize))
}

/// A word that belongs to a part in use, its place in the order, or the model.
fn word_in_use(words: &Words, random: &mut Random) -> usize {
    match random.below(8) {
        0 => random.below(4),
        1 => ORDER + random.below(words.count()),
        _ => ORDER + PARTS + random.below(PART_WORDS * words.count()),
    }
}
