//! Answers a call script on standard input, a line for each line of it.
//!
//!     script [--second]
//!
//! The calls are those of the static library, or of the second implementation. Comments and blank lines have no answer;
//! a line that is not known is answered `unknown` and changes nothing. `tests/scripts/README.md` says what a script is.

use calls::script::implementations::{Calls, Second, Verified};
use calls::script::registers::Registers;
use std::io::{self, BufRead, BufWriter, Write};
use std::process::ExitCode;

/// Reads standard input to its end and writes the answers.
fn answer_all<C: Calls>() -> io::Result<()> {
    let mut input = io::stdin().lock();
    let mut out = BufWriter::new(io::stdout().lock());
    let mut registers = Registers::<C>::default();
    let mut line = Vec::new();
    while input.read_until(b'\n', &mut line)? > 0 {
        let words = line.strip_suffix(b"\n").unwrap_or(&line);
        if let Some(answer) = registers.answer(words) {
            writeln!(out, "{answer}")?;
        }
        line.clear();
    }
    out.flush()
}

fn main() -> ExitCode {
    let arguments: Vec<_> = std::env::args_os().skip(1).collect();
    let answered = match &arguments[..] {
        [] => answer_all::<Verified>(),
        [one] if one == "--second" => answer_all::<Second>(),
        _ => {
            eprintln!("usage: script [--second] < SCRIPT");
            return ExitCode::from(2);
        }
    };
    match answered {
        Ok(()) => ExitCode::SUCCESS,
        Err(error) => {
            eprintln!("script: {error}");
            ExitCode::FAILURE
        }
    }
}
