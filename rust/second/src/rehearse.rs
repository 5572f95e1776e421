//! The program: a table and its score in, a line for each command of the score out.

use crate::advance::Outcome;
use crate::load::{load, wanted, Accepted};
use crate::model::Model;
use std::io::{self, Read, Write};

/// A program reads no more than this of a stream.
pub const INPUT_LIMIT: usize = 65_536;

/// What a program reads of its standard input, of which it takes so many bytes at most.
pub fn input(limit: usize) -> Vec<u8> {
    let mut bytes = Vec::with_capacity(limit);
    // A read error ends the input; what came before it is kept.
    let _ = io::stdin().lock().take(limit as u64).read_to_end(&mut bytes);
    bytes
}

/// What a program reads of a stream.
pub(crate) fn limited(stream: &[u8]) -> &[u8] {
    &stream[..stream.len().min(INPUT_LIMIT)]
}

/// Writes what the program prints for `stream`.
pub fn rehearse(stream: &[u8], out: &mut impl Write) -> io::Result<()> {
    let stream = limited(stream);
    match load(stream) {
        Ok(accepted) => play(stream, accepted, out, write_line),
        Err(refusal) => writeln!(out, "{refusal}"),
    }
}

/// Plays the score after a table: `write_line` writes the line of each of its advances, committed or refused. A
/// command that is refused itself ends it.
pub(crate) fn play<W: Write>(
    stream: &[u8],
    accepted: Accepted,
    out: &mut W,
    mut write_line: impl FnMut(&Model, Outcome, &mut W) -> io::Result<()>,
) -> io::Result<()> {
    let Accepted { mut model, end: mut position } = accepted;
    loop {
        match wanted(stream, position) {
            Ok(None) => return Ok(()),
            Ok(Some((w, after))) => {
                position = after;
                let outcome = model.advance(w.into());
                write_line(&model, outcome, out)?;
            }
            Err(refusal) => return writeln!(out, "{refusal}"),
        }
    }
}

/// Writes the line of an answer.
fn write_line(model: &Model, outcome: Outcome, out: &mut impl Write) -> io::Result<()> {
    let Outcome { number, step, rounds, revisions, .. } = outcome;
    if number != 0 {
        return writeln!(out, "refused {number}");
    }
    write!(out, "{} {} {step} {rounds} {revisions}", model.point.t, model.point.n)?;
    for part in &model.parts {
        match part.output {
            Some(value) => write!(out, " {value}")?,
            None => out.write_all(b" -")?,
        }
    }
    out.write_all(b"\n")
}
