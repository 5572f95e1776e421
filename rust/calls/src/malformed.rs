//! Ways to alter the words of a sound model into words that spell none: a code that no case has, or a number that is
//! wider than its field. In some the lowest bits are what they were, so that the words would be sound if a number were
//! taken modulo its field's width.

use crate::alter::{drive_with_spans, Sort, Then};
use crate::words::*;
use cases::random::Random;

pub const MALFORMED: &[Sort] = &[
    ("a kind that there is not", Then::Unsound, |words, random| {
        let place = &mut some_part(words, random)[KIND];
        widen(place, 13, &[13, 14, 99, 255], random)
    }),
    ("a side that there is not", Then::Unsound, |words, random| {
        let place = &mut some_part(words, random)[SIDE];
        widen(place, 3, &[3, 4, 77], random)
    }),
    ("a mark that there is not", Then::Unsound, |words, random| {
        let place = &mut some_part(words, random)[MARK];
        widen(place, 3, &[3, 4, 77], random)
    }),
    ("a held signal that is neither absent nor a value", Then::Unsound, |words, random| {
        let place = &mut some_part(words, random)[SIGNAL];
        widen(place, 2, &[2, 3], random)
    }),
    ("an output that is neither absent nor a value", Then::Unsound, |words, random| {
        let place = &mut some_part(words, random)[OUTPUT];
        widen(place, 2, &[2, 3], random)
    }),
    ("a port too wide", Then::Unsound, |words, random| {
        let port = PORT + random.below(2);
        let place = &mut some_part(words, random)[port];
        widen(place, 65_537, &[65_537, 70_000], random)
    }),
    ("a place of the order too wide", Then::Unsound, |words, random| {
        let place = &mut words.0[ORDER + random.below(words.count())];
        widen(place, 65_536, &[65_536, 70_000], random)
    }),
    ("a magnitude too wide", Then::Unsound, |words, random| widen(&mut words.0[MAGNITUDE], 256, &[256, 300], random)),
    ("a preference too wide", Then::Unsound, |words, random| {
        let place = &mut some_part(words, random)[PREFERENCE];
        widen(place, 256, &[256, 300], random)
    }),
    ("operand p too wide", Then::Unsound, |words, random| {
        let place = &mut some_part(words, random)[P];
        widen(place, 1 << 32, &[1 << 32, (1 << 32) + 1], random)
    }),
    ("a span too wide", Then::Unsound, |words, random| {
        let Some((drive, spans)) = drive_with_spans(words, random, 1) else { return false };
        let place = &mut words.part_mut(drive)[FIRST_SPAN + random.below(spans)];
        widen(place, 1 << 32, &[1 << 32, (1 << 32) + 1], random)
    }),
];

/// A part in use.
fn some_part<'a>(words: &'a mut Words, random: &mut Random) -> &'a mut [u64] {
    let number = random.below(words.count());
    words.part_mut(number)
}

/// Puts a number into a place whose numbers are all below `least`: one of those given, or the own number with a higher
/// bit.
fn widen(place: &mut u64, least: u64, others: &[u64], random: &mut Random) -> bool {
    let own = *place;
    let higher: Vec<u64> = (0..64).map(|bit| own | 1 << bit).filter(|&number| number >= least).collect();
    *place = match random.below(4) {
        0 => random.pick(others),
        1 => random.pick(&[own + (1 << 32), own + (1 << 63), u64::MAX]),
        _ => random.pick(&higher),
    };
    *place >= least
}
