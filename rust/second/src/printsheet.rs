//! The program that prints the rehearsal: three chosen parts and a stream in, a sheet line for each command of the
//! score out.

use crate::advance::Outcome;
use crate::load::{load, Refusal, CUT};
use crate::model::Model;
use crate::rehearse::{limited, play, INPUT_LIMIT};
use crate::sheet::{sheet, Shown, NOT_PRINTABLE, SHEET_LINE};
use std::io::{self, Write};

/// The bytes of a chosen part's number.
const NUMBER: usize = 4;

/// The program reads no more than this of its input.
pub const PRINTSHEET_LIMIT: usize = 3 * NUMBER + INPUT_LIMIT;

/// Writes what the program prints for `input`, the numbers of three parts and a stream: to `out`, and where there are
/// no three such parts nothing but that to `errors`.
pub fn printsheet(input: &[u8], out: &mut impl Write, errors: &mut impl Write) -> io::Result<()> {
    let Some((choice, stream)) = chosen(input) else {
        return writeln!(errors, "{}", Refusal { number: CUT, position: 0 });
    };
    let stream = limited(stream);
    let accepted = match load(stream) {
        Ok(accepted) => accepted,
        Err(refusal) => return writeln!(out, "{refusal}"),
    };
    if let Some(at) = missing(&accepted.model, choice) {
        return writeln!(errors, "{}", Refusal { number: NOT_PRINTABLE, position: NUMBER * at });
    }
    play(stream, accepted, out, |model, outcome, out| write_line(model, outcome, choice, out))
}

/// The three numbers at the front of the input, and the stream after them; none if they are cut.
fn chosen(input: &[u8]) -> Option<([u64; 3], &[u8])> {
    let (&first, rest) = input.split_first_chunk::<NUMBER>()?;
    let (&second, rest) = rest.split_first_chunk::<NUMBER>()?;
    let (&third, stream) = rest.split_first_chunk::<NUMBER>()?;
    Some(([first, second, third].map(|number| u32::from_le_bytes(number).into()), stream))
}

/// Which of the chosen parts is the first that does not exist. Of a refused answer 26 tells of the choice alone, and it
/// comes before 25, so that no room is needed to ask.
fn missing(model: &Model, choice: [u64; 3]) -> Option<usize> {
    let refused = Shown { number: 1, ..Shown::default() };
    choice.iter().position(|&number| sheet(model, refused, [number; 3], &mut []).number == NOT_PRINTABLE)
}

/// Writes the sheet's line of an answer.
fn write_line(model: &Model, outcome: Outcome, choice: [u64; 3], out: &mut impl Write) -> io::Result<()> {
    let mut line = [0; SHEET_LINE];
    let written = sheet(model, outcome.into(), choice, &mut line);
    out.write_all(&line[..written.length])
}
