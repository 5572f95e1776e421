//! Writes a stream as a text table. The table of an accepted load is the one that the proved save writes, so that equal
//! tables have equal text: parts with their spans, then the wires by receiving part and port; the score follows. Of a
//! refused load there is what comes before the refusal, as it is.
use crate::command::{commands, Command, NO_PREFERENCE};
use crate::input::{Form, Input, Play};
use crate::kinds;
use dozhumek::{Loaded, Refusal, RefusedAt, Score};
use std::fmt::Write;

/// A stream's text, and what ends its score before its end: the text has what comes before.
pub struct Written {
    pub text: String,
    pub refused: Option<RefusedAt>,
}

/// The text table of a stream that was loaded.
pub fn write(input: &Input, loaded: &Loaded) -> Result<Written, Refusal> {
    let mut text = table(input, &loaded.model.save()?);
    let (score, refused) = score(input, loaded.position);
    score.iter().for_each(|play| line(&mut text, &play_text(play)));
    Ok(Written { text, refused })
}

/// The text of a stream whose load is refused: what comes before the refusal, and that as a comment. After a refused
/// End it goes on with the score; any other command that is refused ends it.
pub fn write_refused(input: &Input, refused: &RefusedAt, told: &str) -> String {
    let mut text = table(input, &input.bytes[..refused.position]);
    if Command::read(&input.bytes[refused.position..]) != Some(Command::End) {
        return text + &ended(refused, told);
    }
    line(&mut text, &format!("# {told}"));
    let (score, _) = score(input, refused.position + 1);
    score.iter().for_each(|play| line(&mut text, &play_text(play)));
    text
}

/// The end of a text where a command is refused: why, and a line that no text table has, so that what comes before is
/// not taken for all.
pub fn ended(refused: &RefusedAt, told: &str) -> String {
    format!("# {told}\nrefused {} at {}\n", refused.refusal.number(), refused.position)
}

/// The lines of a table's commands.
fn table(input: &Input, bytes: &[u8]) -> String {
    let table: Vec<Command> = commands(bytes).map(|(_, command)| command).collect();
    let width = input.names.iter().map(|name| name.chars().count()).max().unwrap_or(0);
    let mut text = String::new();
    let mut number = 0;
    for (at, command) in table.iter().enumerate() {
        match *command {
            Command::Begin { magnitude } => line(&mut text, &format!("tick {magnitude}")),
            Command::Part { .. } => {
                let operands = operands(command, &spans(&table[at + 1..]));
                line(&mut text, &format!("part {:width$}  {operands}", input.name(number)));
                number += 1;
            }
            Command::Wire { source: from, receiver, port } => {
                let (from, to) = (input.name(from.into()), input.name(receiver.into()));
                line(&mut text, &format!("wire {from} -> {to}.{port}"));
            }
            _ => {}
        }
    }
    text
}

/// The spans at the front of some commands, with commas between.
fn spans(commands: &[Command]) -> String {
    let spans = commands.iter().map_while(|command| match command {
        Command::Span { ticks } => Some(ticks.to_string()),
        _ => None,
    });
    spans.collect::<Vec<String>>().join(",")
}

/// Puts a line after a text.
fn line(text: &mut String, entry: &str) {
    text.push_str(entry);
    text.push('\n');
}

/// A part's kind and operands, as its line has them: those that the kind names, and a preference if it has one.
pub fn operands(part: &Command, spans: &str) -> String {
    let &Command::Part { kind, preference, a, b, p } = part else { return String::new() };
    let Some(words) = kinds::of_number(kind) else { return format!("kind {kind}") };
    let mut text = words.word.to_string();
    if preference != NO_PREFERENCE {
        let _ = write!(text, " pref={preference}");
    }
    for &operand in words.operands {
        let _ = match operand {
            "a" => write!(text, " a={a}"),
            "b" => write!(text, " b={b}"),
            "p" => write!(text, " p={p}"),
            _ if spans.is_empty() => Ok(()),
            _ => write!(text, " {operand}={spans}"),
        };
    }
    text
}

/// The score of a stream: equal wants that follow each other together.
fn score(input: &Input, position: usize) -> (Vec<Play>, Option<RefusedAt>) {
    if input.form == Form::Table {
        return (input.score.iter().map(|&(_, play)| play).collect(), None);
    }
    let mut plays = Vec::new();
    for wanted in Score::new(&input.bytes, position) {
        match wanted {
            Ok(wanted) => match plays.last_mut() {
                Some(Play::Want { step, times }) if *step == wanted => *times += 1,
                _ => plays.push(Play::Want { step: wanted, times: 1 }),
            },
            Err(refused) => return (plays, Some(refused)),
        }
    }
    (plays, None)
}

/// A line of the score.
pub fn play_text(play: &Play) -> String {
    match play {
        Play::Want { step, times: 1 } => format!("want {step}"),
        Play::Want { step, times } => format!("want {step} x{times}"),
        Play::Until { tick, step } => format!("until {tick} step {step}"),
    }
}
