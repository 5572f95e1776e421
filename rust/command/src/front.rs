//! Text tables, explanations and columns, over the proved calls. `rehearse` hands its arguments on to this command,
//! where no proved program does what they ask for; its statuses are told there (`usage.rs`).
use dozhumek::load;
use front::arguments::{Act, Arguments, Choice};
use front::columns::Columns;
use front::explain::explain;
use front::failure::{Failure, BAD, DONE, NO_TABLE, READER_GONE, REFUSED, UNSAVED, UNWRITTEN};
use front::files;
use front::input::{Input, Play};
use front::messages::Messages;
use front::output::Output;
use front::play::{play, refused_at, score_line, told_load};
use front::{usage, why, writer};
use std::io::{self, BufWriter, ErrorKind, IsTerminal, LineWriter, Write};
use std::process::ExitCode;

fn main() -> ExitCode {
    usage::answer(Messages::new(), run)
}

/// Takes the input and does with it what the arguments say.
fn run(arguments: &Arguments, messages: &mut Messages) -> Result<u8, Failure> {
    let taken = match files::take(arguments.file.as_deref(), arguments.form) {
        Ok(taken) => taken,
        Err(faults) => return Ok(untaken(arguments, &faults, messages)),
    };
    let status = match &arguments.out {
        Some(out) => save(&taken.input, &Output::find(out)?, messages)?,
        None => lines(arguments, &taken.input, messages),
    };
    if let Some(message) = taken.unread() {
        messages.say(&message);
    }
    Ok(status)
}

/// Tells why an input cannot be taken.
fn untaken(arguments: &Arguments, faults: &[String], messages: &mut Messages) -> u8 {
    faults.iter().for_each(|message| messages.say(message));
    if arguments.act == Act::Save {
        messages.say(&format!("rehearse: {}: {UNSAVED}", files::title(arguments.file.as_deref())));
    }
    BAD
}

/// Writes the lines that the arguments ask for onto standard output.
fn lines(arguments: &Arguments, input: &Input, messages: &mut Messages) -> u8 {
    let mut out = output();
    let result = act(arguments, input, &mut *out, messages).and_then(|status| out.flush().map(|()| status));
    messages.clear();
    match result {
        Ok(REFUSED) if !arguments.strict => DONE,
        Ok(status) => status,
        Err(error) if error.kind() == ErrorKind::BrokenPipe => READER_GONE,
        Err(_) => {
            messages.say("rehearse: not all lines could be written");
            UNWRITTEN
        }
    }
}

/// Standard output, a line at a time on a terminal.
fn output() -> Box<dyn Write> {
    match io::stdout().is_terminal() {
        true => Box::new(LineWriter::new(io::stdout())),
        false => Box::new(BufWriter::new(io::stdout())),
    }
}

/// Does what is asked for. The status is 5 where something was refused.
fn act(arguments: &Arguments, input: &Input, out: &mut dyn Write, messages: &mut Messages) -> io::Result<u8> {
    let until = arguments.until;
    match arguments.act {
        Act::Rehearse | Act::Save => rehearse(arguments, input, until, out, messages),
        Act::Explain => explain(input, until, out, messages).map(status_of),
        Act::Text => text(input, out, messages),
    }
}

/// The status by whether anything was refused.
fn status_of(refused: bool) -> u8 {
    if refused {
        REFUSED
    } else {
        DONE
    }
}

/// Loads the table and plays its score.
fn rehearse(
    arguments: &Arguments,
    input: &Input,
    until: Option<Play>,
    out: &mut dyn Write,
    messages: &mut Messages,
) -> io::Result<u8> {
    let loaded = match load(&input.bytes) {
        Ok(loaded) => loaded,
        Err(refused) => {
            score_line(&refused, out)?;
            out.flush()?;
            messages.say(&told_load(input, &refused));
            return Ok(REFUSED);
        }
    };
    let columns = match Columns::of_choice(&arguments.choice, input, &loaded.model) {
        Ok(columns) => columns,
        Err(wrong) => {
            messages.say(&format!("rehearse: {wrong}"));
            return Ok(BAD);
        }
    };
    let on_terminal = matches!(arguments.choice, Choice::Sheet(_)) && io::stdout().is_terminal();
    if arguments.names || on_terminal {
        columns.heading(input, out)?;
    }
    play(input, loaded, columns, until, out, messages).map(status_of)
}

/// Writes the table and the score as a text table; of a refused load what comes before the refusal.
fn text(input: &Input, out: &mut dyn Write, messages: &mut Messages) -> io::Result<u8> {
    let loaded = match load(&input.bytes) {
        Ok(loaded) => loaded,
        Err(refused) => {
            let message = told_load(input, &refused);
            out.write_all(writer::write_refused(input, &refused, &message).as_bytes())?;
            messages.say(&message);
            return Ok(NO_TABLE);
        }
    };
    let written = writer::write(input, &loaded).map_err(io::Error::other)?;
    out.write_all(written.text.as_bytes())?;
    let Some(refused) = written.refused else { return Ok(DONE) };
    let message = refused_at(input, &refused, refused.position, &why::score_refused(input, &refused));
    out.write_all(writer::ended(&refused, &message).as_bytes())?;
    messages.say(&message);
    Ok(NO_TABLE)
}

/// Saves the table's bytes in their one form.
fn save(input: &Input, output: &Output, messages: &mut Messages) -> Result<u8, Failure> {
    match load(&input.bytes) {
        Ok(loaded) => {
            let unsaved = |_| Failure::new(UNWRITTEN, format!("{}: {UNSAVED}", input.title));
            output.put(&loaded.model.save().map_err(unsaved)?)?;
            Ok(DONE)
        }
        Err(refused) => {
            messages.say(&format!("{}: {UNSAVED}", told_load(input, &refused)));
            Ok(NO_TABLE)
        }
    }
}
