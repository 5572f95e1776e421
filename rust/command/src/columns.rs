//! The lines of a rehearsal: document 01's, with all outputs or with those of some parts, or a sheet's.
use crate::arguments::Choice;
use crate::input::Input;
use dozhumek::{Answer, Model, SHEET_LINE};
use std::io::{self, Write};

/// Which outputs are shown, by part numbers.
#[derive(Clone, Debug, PartialEq, Eq)]
pub enum Columns {
    All,
    Only(Vec<usize>),
    Sheet([usize; 3]),
}

/// How wide an output's column of a sheet is.
const SHEET_OUTPUT: usize = 11;

impl Columns {
    /// The columns of a choice, or which part of it the table does not have.
    pub fn of_choice(choice: &Choice, input: &Input, model: &Model) -> Result<Columns, String> {
        let part_of = |option: &str, part: &str| number(option, part, input, model);
        Ok(match choice {
            Choice::All => Columns::All,
            Choice::Only(parts) => {
                Columns::Only(parts.iter().map(|part| part_of("--only", part)).collect::<Result<_, _>>()?)
            }
            Choice::Sheet([first, second, third]) => {
                let part_of = |part| part_of("--sheet", part);
                Columns::Sheet([part_of(first)?, part_of(second)?, part_of(third)?])
            }
        })
    }

    /// Writes the line of an answer, of which the model is given.
    pub fn line(&self, model: &Model, answer: &Answer, out: &mut dyn Write) -> io::Result<()> {
        match self {
            Columns::Sheet(parts) => out.write_all(&sheet(model, answer, *parts)?),
            _ if answer.number != 0 => writeln!(out, "refused {}", answer.number),
            _ => {
                let Answer { step, rounds, revisions, .. } = answer;
                write!(out, "{} {} {step} {rounds} {revisions}", model.t(), model.n())?;
                let outputs = model.outputs().unwrap_or_default();
                match self {
                    Columns::Only(parts) => parts.iter().try_for_each(|&part| output(outputs[part], out))?,
                    _ => outputs.iter().try_for_each(|&signal| output(signal, out))?,
                }
                out.write_all(b"\n")
            }
        }
    }

    /// Writes the heading of the lines, with the parts' names. A sheet's columns cut a long one.
    pub fn heading(&self, input: &Input, out: &mut dyn Write) -> io::Result<()> {
        match self {
            Columns::Sheet(parts) => {
                write!(out, "{:>19} {:>3} {:>10} {:>4} {:>2}", "t", "n", "step", "rnds", "rv")?;
                parts.iter().try_for_each(|&part| write!(out, " {:>SHEET_OUTPUT$}", cut(&input.name(part))))?;
            }
            _ => {
                let all: Vec<usize> = (0..input.names.len()).collect();
                let parts = if let Columns::Only(parts) = self { parts } else { &all };
                out.write_all(b"t n step rounds revisions")?;
                parts.iter().try_for_each(|&part| write!(out, " {}", input.name(part)))?;
            }
        }
        out.write_all(b"\n")
    }
}

/// The number of a part that is told by name or by number.
fn number(option: &str, part: &str, input: &Input, model: &Model) -> Result<usize, String> {
    let named = input.names.iter().position(|name| name == part);
    let digits = part.bytes().all(|byte| byte.is_ascii_digit());
    let numbered = || part.parse().ok().filter(|&number: &usize| digits && number < input.names.len());
    let count = model.count();
    named.or_else(numbered).ok_or_else(|| {
        format!(
            "{option}: the table has no part '{part}': its parts are {}, or 0 to {}",
            input.names.join(", "),
            count - 1
        )
    })
}

/// Writes an output after what is on the line.
fn output(signal: Option<i64>, out: &mut dyn Write) -> io::Result<()> {
    match signal {
        Some(value) => write!(out, " {value}"),
        None => out.write_all(b" -"),
    }
}

/// A sheet's line, which every answer of a sound model has for the parts of its table.
fn sheet(model: &Model, answer: &Answer, parts: [usize; 3]) -> io::Result<[u8; SHEET_LINE]> {
    model.sheet(answer, parts.map(|part| part as u64)).map_err(io::Error::other)
}

/// A name as a sheet's column has room for it.
fn cut(name: &str) -> String {
    match name.chars().count() <= SHEET_OUTPUT {
        true => name.to_string(),
        false => name.chars().take(SHEET_OUTPUT - 1).chain(['…']).collect(),
    }
}
