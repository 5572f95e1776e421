//! `rehearse`: reads the arguments, sees that what they need is proved and built, and has it done: bytes by the proved
//! programs, all else by the command over the proved calls. `usage.rs` has the options and the statuses.
use front::arguments::Arguments;
use front::failure::{Failure, BAD, UNBUILT, UNSAVED, UNWRITTEN};
use front::files::{self, Taken};
use front::home::{self, Program};
use front::input::Form;
use front::messages::Messages;
use front::output::Output;
use front::ready::Ready;
use front::{program, system, usage};
use std::env;
use std::os::unix::process::CommandExt;
use std::process::{Command, ExitCode};

fn main() -> ExitCode {
    usage::answer(Messages::of_build(), run)
}

/// Has a proved program do what the arguments say, or the command over the proved calls.
fn run(arguments: &Arguments, messages: &mut Messages) -> Result<u8, Failure> {
    let nowhere = || Failure::new(UNBUILT, "the repository is not found: no folder above the command has a crates.txt");
    let root = home::root().ok_or_else(nowhere)?;
    let undone = if arguments.out.is_some() { UNSAVED } else { "nothing is rehearsed" };
    let mut ready = Ready::new(&root, undone, messages);
    match arguments.program() {
        Some(program) => by_program(program, arguments, &mut ready),
        None => by_calls(arguments, &mut ready),
    }
}

/// Has a proved program do it. What is wrong with FILE and OUT is told before anything is built; bytes cannot be wrong,
/// and are left where they are until then.
fn by_program(program: Program, arguments: &Arguments, ready: &mut Ready) -> Result<u8, Failure> {
    files::there(arguments.file.as_deref())?;
    let spelled = (arguments.form == Form::Hex).then(|| take(arguments)).transpose()?;
    let output = arguments.out.as_deref().map(Output::find).transpose()?;
    if output.is_none() {
        open_output()?;
    }
    ready.program(program)?;
    let taken = spelled.map_or_else(|| take(arguments), Ok)?;
    match output {
        Some(output) => program::save(ready.root, program, taken, &output, ready.messages),
        None => program::print(ready.root, program, arguments, taken, ready.messages),
    }
}

/// Takes the input.
fn take(arguments: &Arguments) -> Result<Taken, Failure> {
    let taken = files::take(arguments.file.as_deref(), arguments.form);
    taken.map_err(|faults| Failure { status: BAD, message: faults.join("\n") })
}

/// Gives the command over the proved calls the place of this one, with the same arguments.
fn by_calls(arguments: &Arguments, ready: &mut Ready) -> Result<u8, Failure> {
    files::there(arguments.file.as_deref())?;
    match &arguments.out {
        Some(out) => drop(Output::find(out)?),
        None => open_output()?,
    }
    let command = ready.calls()?;
    let why = Command::new(ready.root.join(&command)).args(env::args_os().skip(1)).exec();
    Err(Failure::new(UNBUILT, format!("{command} cannot be run: {why}")))
}

/// Sees that standard output is open.
fn open_output() -> Result<(), Failure> {
    let closed = || Failure::new(UNWRITTEN, "standard output is closed");
    system::is_open(1).then_some(()).ok_or_else(closed)
}
