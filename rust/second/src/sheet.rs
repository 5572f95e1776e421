//! Printing an answer as a line of the sheet: fields of fixed widths, a blank between, and a line feed.

use crate::advance::Outcome;
use crate::model::{Model, Point, Signal};
use crate::writing::{put, Written, NOT_SOUND};
use std::fmt;
use std::io::Write;

pub(crate) const NOT_PRINTABLE: u8 = 26;

/// The columns of a line, and its bytes.
const COLUMNS: usize = 78;
pub const SHEET_LINE: usize = COLUMNS + 1;

/// What a line shows of an answer beside its model: any numbers, also ones that no advance gives.
#[derive(Clone, Copy, Debug, Default, PartialEq, Eq)]
pub struct Shown {
    pub number: u64,
    pub step: u64,
    pub rounds: u64,
    pub revisions: u64,
}

impl From<Outcome> for Shown {
    fn from(outcome: Outcome) -> Shown {
        let Outcome { number, step, rounds, revisions, .. } = outcome;
        Shown { number: number.into(), step, rounds: rounds.into(), revisions: revisions.into() }
    }
}

/// Writes the line of an answer with any model, sound or not, and the outputs of three parts chosen by number, to the
/// front of a buffer. What lies after the line is kept, and all of the buffer where the call is refused.
pub fn sheet(model: &Model, shown: Shown, choice: [u64; 3], buffer: &mut [u8]) -> Written {
    if !model.sound() {
        return Written::refused(NOT_SOUND);
    }
    let Some(line) = line(model, shown, choice) else {
        return Written::refused(NOT_PRINTABLE);
    };
    put(&line, buffer)
}

/// The line, or none where a chosen part does not exist or a number of a committed answer is wider than its field.
fn line(model: &Model, shown: Shown, choice: [u64; 3]) -> Option<[u8; SHEET_LINE]> {
    let mut outputs = [Output(None); 3];
    for (output, number) in outputs.iter_mut().zip(choice) {
        output.0 = model.parts.get(usize::try_from(number).ok()?)?.output;
    }
    let mut line = [b' '; SHEET_LINE];
    line[COLUMNS] = b'\n';
    let mut columns = &mut line[..COLUMNS];
    let Shown { number, step, rounds, revisions } = shown;
    if number != 0 {
        write!(columns, "refused {number}").ok()?;
        return Some(line);
    }
    let Point { t, n } = model.point;
    let [x, y, z] = outputs;
    // Each field takes its width at least, so that all of them fit the columns only where none takes more.
    write!(columns, "{t:>19} {n:>3} {step:>10} {rounds:>4} {revisions:>2} {x:>11} {y:>11} {z:>11}").ok()?;
    Some(line)
}

/// An output as a field shows it.
#[derive(Clone, Copy)]
struct Output(Signal);

impl fmt::Display for Output {
    fn fmt(&self, f: &mut fmt::Formatter) -> fmt::Result {
        match self.0 {
            Some(value) => value.fmt(f),
            None => f.pad("-"),
        }
    }
}
