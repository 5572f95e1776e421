//! Loads the table at the start of the first 65,536 bytes of standard input and writes its saved bytes. Where it is
//! refused nothing is written but why, on standard error.

use second::{input, load, saved, INPUT_LIMIT};
use std::io::{self, Write};

/// Saves the table of standard input.
fn main() -> io::Result<()> {
    match load(&input(INPUT_LIMIT)) {
        Ok(accepted) => io::stdout().write_all(&saved(&accepted.model)),
        Err(refusal) => writeln!(io::stderr(), "{refusal}"),
    }
}
