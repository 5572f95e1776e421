//! Operands that are out of their range, and those P that are too long.
use super::laid::{Laid, LaidPart};
use crate::command::{Command, NO_PREFERENCE};
use crate::input::Form;
use crate::kinds::{of_number, KIND_WORDS};
use dozhumek::LAST_TICK;

/// The largest value, p and span.
const LARGEST: i64 = 1_000_000_000;
const LARGEST_MAGNITUDE: u8 = 15;

/// All that is wrong with the operands of the command at the position.
pub fn out_of_range(laid: &Laid) -> Option<String> {
    let wrong = match laid.command()? {
        Command::Begin { magnitude } => {
            let what = if laid.input.form == Form::Table { "tick" } else { "the default magnitude" };
            vec![outside(what, magnitude.into(), 0, LARGEST_MAGNITUDE.into())]
        }
        Command::Part { kind, preference, a, b, p } => {
            let name = laid.name(laid.parts.len());
            let preference = wrong_preference(&name, preference, laid.input.form);
            preference.into_iter().chain(wrong_operands(&name, kind, [a.into(), b.into(), p.into()])).collect()
        }
        Command::Span { ticks } => {
            let (spans, drive) = (laid.parts.last()?.spans.len(), laid.name(laid.parts.len() - 1));
            vec![outside(&format!("span {} of {drive}", spans + 1), ticks.into(), 1, LARGEST)]
        }
        _ => Vec::new(),
    };
    (!wrong.is_empty()).then(|| wrong.join("; "))
}

/// A number that is not in its range.
fn outside(what: &str, number: i64, low: i64, high: i64) -> String {
    format!("{what} is {number}, not {low} to {high}")
}

/// What is wrong with a part's preference. Text has no number for none.
fn wrong_preference(name: &str, preference: u8, form: Form) -> Option<String> {
    let known = preference <= LARGEST_MAGNITUDE || preference == NO_PREFERENCE;
    let none = if form == Form::Table { "" } else { ", or 255 for none" };
    let told = || outside(&format!("pref of {name}"), preference.into(), 0, LARGEST_MAGNITUDE.into());
    (!known).then(|| told() + none)
}

/// What is wrong with a part's kind, or with its operands a, b and p.
fn wrong_operands(name: &str, kind: u8, operands: [i64; 3]) -> Vec<String> {
    let Some(words) = of_number(kind) else {
        return vec![format!("the kind of {name} is {kind:02X}, not 00 to {:02X}", KIND_WORDS.len() - 1)];
    };
    let mut wrong = Vec::new();
    for (operand, value) in ["a", "b", "p"].into_iter().zip(operands) {
        let low = if operand == "p" { 1 } else { -LARGEST };
        if !words.names(operand) && value != 0 {
            wrong.push(format!("{operand} of {name} is {value}, but a part of kind {} has no {operand}", words.word));
        } else if words.names(operand) && !(low..=LARGEST).contains(&value) {
            wrong.push(outside(&format!("{operand} of {name}"), value, low, LARGEST));
        }
    }
    wrong
}

/// The parts whose P is above 10^18, each with its number and the power of ten that its ratio is.
fn long<'a>(laid: &'a Laid) -> impl Iterator<Item = (usize, &'a LaidPart, u32)> + 'a {
    let preferences = laid.parts.iter().map(|part| part.preference).filter(|&own| own != NO_PREFERENCE);
    let master = preferences.chain(laid.begin.map(|(_, magnitude)| magnitude)).max().unwrap_or(0);
    let power = move |part: &LaidPart| match part.preference {
        NO_PREFERENCE => 0,
        own => u32::from(master - own),
    };
    let parts = laid.parts.iter().enumerate().map(move |(number, part)| (number, part, power(part)));
    let ratio = |power: u32| 10u128.checked_pow(power).unwrap_or(u128::MAX);
    parts.filter(move |(_, part, power)| u128::from(part.p).saturating_mul(ratio(*power)) > LAST_TICK.into())
}

/// Each P that is above 10^18.
pub fn too_long(laid: &Laid) -> Option<String> {
    let told = long(laid).map(|(number, part, power)| {
        let (name, place) = (laid.name(number), laid.input.mention(part.position));
        format!("P of {name} ({place}) is {} × 10^{power}, above 10^18", part.p)
    });
    let told: Vec<String> = told.collect();
    (!told.is_empty()).then(|| told.join("; "))
}

/// Where the first part with such a P is.
pub fn first_too_long(laid: &Laid) -> Option<usize> {
    let mut long = long(laid);
    long.next().map(|(_, part, _)| part.position)
}
