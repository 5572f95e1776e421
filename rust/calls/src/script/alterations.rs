//! The fields of a model and of an answer that a script alters, by name.

use crate::words::*;
use std::str::FromStr;

/// Puts a value into a field. None where there is no such field or place, or its type cannot hold the value; then
/// nothing is changed.
pub fn alter(model: &mut Words, field: &[&str], value: &str) -> Option<()> {
    match *field {
        ["magnitude"] => model.0[MAGNITUDE] = number::<u8>(value)?.into(),
        ["count"] => model.0[COUNT] = number(value)?,
        ["tick"] => model.0[T] = number(value)?,
        ["microstep"] => model.0[N] = number(value)?,
        ["order", at] => model.0[ORDER + place(at, PARTS)?] = number::<u16>(value)?.into(),
        ["part", at, ref field @ ..] => alter_part(model.part_mut(place(at, PARTS)?), field, value)?,
        _ => return None,
    }
    Some(())
}

/// Puts a value into a field of a part.
fn alter_part(part: &mut [u64], field: &[&str], value: &str) -> Option<()> {
    match *field {
        ["kind"] => part[KIND] = place(value, KINDS)? as u64,
        ["preference"] => part[PREFERENCE] = number::<u8>(value)?.into(),
        ["a"] => part[A] = signed(value)?,
        ["b"] => part[B] = signed(value)?,
        ["p"] => part[P] = number::<u32>(value)?.into(),
        ["spans"] => part[SPAN_COUNT] = number(value)?,
        ["span", at] => part[FIRST_SPAN + place(at, SPANS)?] = number::<u32>(value)?.into(),
        ["port0"] => part[PORT] = port(value)?,
        ["port1"] => part[PORT + 1] = port(value)?,
        ["ratio"] => part[RATIO] = number(value)?,
        ["local"] => part[LOCAL] = number(value)?,
        ["held"] => part[HELD] = signed(value)?,
        ["speed"] => part[SPEED] = signed(value)?,
        ["signal"] => part[SIGNAL..][..2].copy_from_slice(&signal(value)?),
        ["output"] => part[OUTPUT..][..2].copy_from_slice(&signal(value)?),
        ["side"] => part[SIDE] = one_of(&["unset", "negative", "positive"], value)?,
        ["mark"] => part[MARK] = one_of(&["none", "1", "-1"], value)?,
        _ => return None,
    }
    Some(())
}

/// The names of an answer's counts.
const COUNTS: [&str; 5] = ["number", "step", "rounds", "revisions", "ceiling"];

/// Puts a value into a count of an answer. None as for `alter`.
pub fn alter_count(counts: &mut [u64; 5], name: &str, value: &str) -> Option<()> {
    counts[one_of(&COUNTS, name)? as usize] = number(value)?;
    Some(())
}

/// A decimal number of the type that is asked for.
pub fn number<T: FromStr>(word: &str) -> Option<T> {
    // The sign that a script's numbers do not have.
    if word.starts_with('+') {
        return None;
    }
    word.parse().ok()
}

/// A signed number as a word.
fn signed(word: &str) -> Option<u64> {
    number::<i64>(word).map(|value| value as u64)
}

/// A port's word: a part number, or `-` where it is unwired.
fn port(word: &str) -> Option<u64> {
    if word == "-" {
        return Some(0);
    }
    number::<u16>(word).map(|source| u64::from(source) + 1)
}

/// A signal's two words: a value, or `-` where it is absent.
fn signal(word: &str) -> Option<[u64; 2]> {
    if word == "-" {
        return Some([0, 0]);
    }
    signed(word).map(|value| [1, value])
}

/// The place that a word numbers, of so many.
fn place(word: &str, places: usize) -> Option<usize> {
    number(word).filter(|&at| at < places)
}

/// The number of a name.
fn one_of(names: &[&str], word: &str) -> Option<u64> {
    names.iter().position(|&name| name == word).map(|at| at as u64)
}
