//! Explains a stream: each command as its bytes in hexadecimal, with its position and meaning as a comment, and
//! refusals at their place. The score is played, so that each wanted step has its answer. What is written is
//! hexadecimal text, and can be rehearsed again.
use crate::columns::Columns;
use crate::command::{commands, Command, NO_PREFERENCE};
use crate::files::LIMIT;
use crate::input::{Input, Play};
use crate::messages::Messages;
use crate::play::{entries, refused_at, Entry, Rehearsal};
use crate::why::{self, counted};
use crate::writer::{operands, play_text};
use dozhumek::{load, Answer, Loaded, RefusedAt};
use std::io::{self, Write};

/// How many bytes a row has, and how wide they are, without what follows.
const ROW: usize = 16;
const WIDTH: usize = 3 * ROW - 1;

/// Writes the explanation of a input. Whether anything was refused.
pub fn explain(input: &Input, until: Option<Play>, out: &mut dyn Write, messages: &mut Messages) -> io::Result<bool> {
    match load(&input.bytes) {
        Ok(loaded) => {
            table(input, loaded.position, out)?;
            score(input, loaded, until, out, messages)
        }
        Err(refused) => {
            let behind = table(input, refused.position + 1, out)?;
            let position = why::place_of(input, &refused);
            comment(&refused_at(input, &refused, position, &why::load_refused(input, &refused)), out)?;
            unread(&input.bytes[behind..], behind, out)?;
            Ok(true)
        }
    }
}

/// Writes the commands of a table that begin before a position; the position after them.
fn table(input: &Input, before: usize, out: &mut dyn Write) -> io::Result<usize> {
    let (mut parts, mut behind, mut finest) = (0, 0, 0);
    for (at, command) in commands(&input.bytes).take_while(|&(at, _)| at < before) {
        let line = on_line(input.line(at));
        finest = finest.max(magnitude(&command));
        row(&command.bytes(), &format!("{at}: {}{line}", meaning(input, &command, parts, finest)), out)?;
        parts += usize::from(matches!(command, Command::Part { .. }));
        behind = at + command.length();
    }
    Ok(behind)
}

/// The magnitude that a command asks for; 0 where it asks for none.
fn magnitude(command: &Command) -> u8 {
    match *command {
        Command::Begin { magnitude } => magnitude,
        Command::Part { preference, .. } if preference != NO_PREFERENCE => preference,
        _ => 0,
    }
}

/// How long a tick of a magnitude is.
fn tick(magnitude: u8) -> String {
    match magnitude {
        0 => "a second".to_string(),
        magnitude => format!("10^-{magnitude} seconds"),
    }
}

/// Where something was written, after its meaning.
fn on_line(line: Option<usize>) -> String {
    line.map(|line| format!(" (line {line})")).unwrap_or_default()
}

/// What a command means, where so many parts come before it, and the finest magnitude up to it is this.
fn meaning(input: &Input, command: &Command, parts: usize, finest: u8) -> String {
    match *command {
        Command::Begin { magnitude } => format!("Begin: a tick is at most {}", tick(magnitude)),
        Command::Part { .. } => format!("part {parts}, {}: {}", input.name(parts), operands(command, "")),
        Command::Span { ticks } => match parts.checked_sub(1) {
            Some(drive) => format!("span {ticks} of {}", input.name(drive)),
            None => format!("span {ticks}"),
        },
        Command::Wire { source: from, receiver, port } => {
            format!("wire {} -> {}.{port}", input.name(from.into()), input.name(receiver.into()))
        }
        Command::End => format!("End: {}; the master's tick is {}", counted(parts as u64, "part"), tick(finest)),
        Command::Want { step } => format!("want {step}"),
    }
}

/// The score as it is spelled: where its next command is, and how many wanted steps had no room.
struct Spelling {
    position: usize,
    unspelled: u64,
}

/// Writes the score, and what each of its wanted steps comes to.
fn score(
    input: &Input,
    loaded: Loaded,
    until: Option<Play>,
    out: &mut dyn Write,
    messages: &mut Messages,
) -> io::Result<bool> {
    let mut spelling = Spelling { position: loaded.position, unspelled: 0 };
    let mut rehearsal = Rehearsal { input, model: loaded.model, columns: Columns::All, refused: false };
    for entry in entries(input, loaded.position, until) {
        match entry {
            Ok(entry) => played(&mut rehearsal, &entry, &mut spelling, out, messages)?,
            Err(refused) => {
                rehearsal.refused = true;
                refused_command(input, &refused, out)?;
            }
        }
    }
    if spelling.unspelled > 0 {
        let more = counted(spelling.unspelled, "more wanted step");
        comment(&format!("{more}: played, but not spelled, as {LIMIT} bytes of a stream are read"), out)?;
    }
    Ok(rehearsal.refused)
}

/// Writes an entry of the score, of `until` each step that it wants.
fn played(
    rehearsal: &mut Rehearsal,
    entry: &Entry,
    spelling: &mut Spelling,
    out: &mut dyn Write,
    messages: &mut Messages,
) -> io::Result<()> {
    let line = on_line(entry.line);
    match entry.play {
        Play::Want { step, times } => {
            (0..times).try_for_each(|_| spelling.wanted(rehearsal, step, &line, out).map(|_| ()))
        }
        Play::Until { tick, step } => {
            comment(&format!("{}{line}", play_text(&entry.play)), out)?;
            let run = rehearsal.until((tick, step), messages, |rehearsal, wanted| {
                // It is at most the step, which a command can spell.
                spelling.wanted(rehearsal, wanted as u32, &line, out)
            })?;
            comment(&rehearsal.ended(tick, &run), out)
        }
    }
}

impl Spelling {
    /// Writes a wanted step with its answer, if there is room for it; in words what refused it.
    fn wanted(
        &mut self,
        rehearsal: &mut Rehearsal,
        step: u32,
        line: &str,
        out: &mut dyn Write,
    ) -> io::Result<Option<String>> {
        let refused = rehearsal.advance(step.into());
        let command = Command::Want { step };
        if self.position + command.length() > LIMIT {
            self.unspelled += 1;
            return Ok(refused.err().map(|(_, why)| why));
        }
        let (t, n) = (rehearsal.model.t(), rehearsal.model.n());
        let (told, refused) = match refused {
            Ok(Answer { step, rounds, revisions, .. }) => {
                (format!("({t}, {n}), step {step}, rounds {rounds}, revisions {revisions}"), None)
            }
            Err((_, why)) => (why.clone(), Some(why)),
        };
        row(&command.bytes(), &format!("{}: want {step}: {told}{line}", self.position), out)?;
        self.position += command.length();
        Ok(refused)
    }
}

/// Writes a refused command of the score, and all after it.
fn refused_command(input: &Input, refused: &RefusedAt, out: &mut dyn Write) -> io::Result<()> {
    comment(&refused_at(input, refused, refused.position, &why::score_refused(input, refused)), out)?;
    unread(&input.bytes[refused.position..], refused.position, out)
}

/// Writes bytes that are not read.
fn unread(bytes: &[u8], position: usize, out: &mut dyn Write) -> io::Result<()> {
    let mut rows = bytes.chunks(ROW).enumerate();
    rows.try_for_each(|(number, bytes)| row(bytes, &format!("{}: not read", position + ROW * number), out))
}

/// Writes bytes with a comment.
fn row(bytes: &[u8], meaning: &str, out: &mut dyn Write) -> io::Result<()> {
    let spelled: Vec<String> = bytes.iter().map(|byte| format!("{byte:02X}")).collect();
    writeln!(out, "{:WIDTH$}  # {meaning}", spelled.join(" "))
}

/// Writes a comment alone.
fn comment(text: &str, out: &mut dyn Write) -> io::Result<()> {
    writeln!(out, "# {text}")
}
