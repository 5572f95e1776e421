//! Reads the numbers of three parts, four bytes each, and rehearses the 65,536 bytes of standard input after them,
//! with a sheet line for each advance that shows the outputs of these parts.

use second::{input, printsheet, PRINTSHEET_LIMIT};
use std::io::{self, BufWriter, Write};

/// Prints the sheet of standard input.
fn main() -> io::Result<()> {
    let bytes = input(PRINTSHEET_LIMIT);
    let mut out = BufWriter::with_capacity(1 << 16, io::stdout().lock());
    printsheet(&bytes, &mut out, &mut io::stderr())?;
    out.flush()
}
