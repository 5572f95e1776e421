//! How the command is called, in words, and how a call of it is answered.
use crate::arguments::{self, Arguments, Asked};
use crate::failure::{Failure, DONE, UNWRITTEN};
use crate::messages::Messages;
use std::env;
use std::io::{self, Write};
use std::process::ExitCode;

/// The usage.
pub const USAGE: &str = "\
usage: rehearse [OPTIONS] [FILE]   (no FILE, or -: standard input)
       rehearse [--hex | --table] --save FILE OUT   (writes the table in FILE into OUT, without the score)
A FILE named .table is a text table, one named .hex is bytes in hexadecimal, any other is the bytes.
  --names            a heading with the columns' names above the lines
  --only A,B,...     the outputs of these parts only, by name or number
  --sheet A,B,C      a sheet of 78 columns, with the outputs of three parts, by name or number
  --until T --step S after the score: on to tick T, in steps of S
  --strict           status 5 where anything was refused
  --hex, --table     the input is hexadecimal, or a text table, whatever its name
  --explain          instead of rehearsing: each command, with its place and meaning
  --text             instead of rehearsing: the table and score as a text table
  --help, -h         this, and the statuses
  --version          the version
  --                 ends the options
";

/// The statuses.
const STATUSES: &str = "\
Status 0: rehearsed, refusals included, or written
       1: what rehearses could not be proved or built
       2: bad usage, a file or text that cannot be read, or a part that is not there
       3: not all could be written
       4: the load is refused: --save writes nothing, --text what comes before the refusal
       5: --strict: something was refused
";

/// Answers a call of the command: help, the version, or what `run` does with the arguments. Its status.
pub fn answer(mut messages: Messages, run: fn(&Arguments, &mut Messages) -> Result<u8, Failure>) -> ExitCode {
    let done = match arguments::read(env::args_os().skip(1)) {
        Ok(Asked::Help) => help().map(|()| DONE),
        Ok(Asked::Version) => version().map(|()| DONE),
        Ok(Asked::Work(arguments)) => run(&arguments, &mut messages),
        Err(failure) => Err(failure),
    };
    ExitCode::from(done.unwrap_or_else(|failure| messages.fail(&failure)))
}

/// Prints the usage and the statuses.
fn help() -> Result<(), Failure> {
    print(&format!("{USAGE}{STATUSES}"))
}

/// Prints the version.
fn version() -> Result<(), Failure> {
    print(&format!("rehearse {}\n", env!("CARGO_PKG_VERSION")))
}

/// Prints a text.
fn print(text: &str) -> Result<(), Failure> {
    let mut out = io::stdout();
    let written = crate::system::is_open(1) && out.write_all(text.as_bytes()).and_then(|()| out.flush()).is_ok();
    match written {
        true => Ok(()),
        false => Err(Failure::new(UNWRITTEN, "not all lines could be written")),
    }
}
