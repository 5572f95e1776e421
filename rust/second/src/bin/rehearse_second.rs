//! Rehearses the first 65,536 bytes of standard input.

use second::{input, rehearse, INPUT_LIMIT};
use std::io::{self, BufWriter, Write};

/// Rehearses standard input.
fn main() -> io::Result<()> {
    let stream = input(INPUT_LIMIT);
    let mut out = BufWriter::with_capacity(1 << 16, io::stdout().lock());
    rehearse(&stream, &mut out)?;
    out.flush()
}
