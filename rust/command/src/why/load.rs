//! Why a load was refused, or a command of the score in a stream's bytes.
use super::laid::Laid;
use super::words::command;
use super::{operands, wires};
use crate::command::Command;
use crate::files::LIMIT;
use crate::input::Input;
use dozhumek::{Refusal, RefusedAt};

/// Why a load was refused, in one line.
pub fn load_refused(input: &Input, refused: &RefusedAt) -> String {
    let laid = Laid::before(input, refused.position);
    let told = match refused.refusal {
        Refusal::Cut => cut(&laid),
        Refusal::UnknownCommand => unknown(&laid),
        Refusal::OutOfPlace => out_of_place(&laid),
        Refusal::OutOfRange => operands::out_of_range(&laid),
        Refusal::TooMany => too_many(&laid),
        Refusal::NotThere => wires::not_there(&laid),
        Refusal::AlreadyWired => wires::already_wired(&laid),
        Refusal::NoParts => Some("the table has no parts".to_string()),
        Refusal::PeriodTooLong => operands::too_long(&laid),
        Refusal::Loop => wires::in_a_loop(&laid),
        Refusal::SpanNotRising => not_rising(&laid),
        _ => None,
    };
    told.unwrap_or_else(|| refused.refusal.meaning().to_string())
}

/// The position whose line the message begins with: that of the refused command, but where End is refused for a part's
/// P or for a loop, that of the part, or of a wire of the loop.
pub fn place_of(input: &Input, refused: &RefusedAt) -> usize {
    let laid = Laid::before(input, refused.position);
    let place = match refused.refusal {
        Refusal::PeriodTooLong => operands::first_too_long(&laid),
        Refusal::Loop => wires::first_of_a_loop(&laid),
        _ => None,
    };
    place.unwrap_or(refused.position)
}

/// Why a command of the score in a stream's bytes was refused, in one line.
pub fn score_refused(input: &Input, refused: &RefusedAt) -> String {
    let behind = input.bytes.get(refused.position..).unwrap_or(&[]);
    let byte = behind.first().copied().unwrap_or(0);
    match (refused.refusal, command(byte)) {
        (Refusal::Cut, Some((name, length))) => cut_command(input, name, behind.len(), length),
        (Refusal::UnknownCommand, _) => {
            format!("{byte:02X} is no command: after End there are only wanted steps, 06")
        }
        (Refusal::OutOfPlace, Some((name, _))) => {
            format!("{name} comes after End, where there are only wanted steps, 06")
        }
        _ => refused.refusal.meaning().to_string(),
    }
}

/// A command of which only some bytes are there.
fn cut_command(input: &Input, name: &str, there: usize, length: usize) -> String {
    if input.bytes.len() == LIMIT {
        return format!("the {LIMIT} bytes that are read end inside {name}");
    }
    let missing = length.saturating_sub(there);
    let are = if missing == 1 { "is" } else { "are" };
    format!("the stream ends inside {name}: {missing} of its {length} bytes {are} missing")
}

/// The stream ends before End, or inside a command.
fn cut(laid: &Laid) -> Option<String> {
    match (laid.behind().first(), laid.last) {
        (Some(&byte), _) => {
            command(byte).map(|(name, length)| cut_command(laid.input, name, laid.behind().len(), length))
        }
        (None, None) => Some("the stream is empty: Begin is missing".to_string()),
        (None, Some(last)) => Some(format!("the stream ends after {}: End is missing", told(laid, last))),
    }
}

/// A command in passing, with its place.
fn told(laid: &Laid, (position, command): (usize, Command)) -> String {
    let what = match command {
        Command::Begin { .. } => "Begin".to_string(),
        Command::Part { .. } => laid.name(laid.parts.len().saturating_sub(1)),
        Command::Span { .. } => format!("a span of {}", laid.name(laid.parts.len().saturating_sub(1))),
        Command::Wire { .. } => "a wire".to_string(),
        Command::End => "End".to_string(),
        Command::Want { .. } => "a wanted step".to_string(),
    };
    format!("{what} ({})", laid.input.mention(position))
}

/// A byte that begins no command.
fn unknown(laid: &Laid) -> Option<String> {
    let byte = laid.behind().first()?;
    Some(match laid.last {
        None if byte.is_ascii_graphic() || byte.is_ascii_whitespace() || *byte == 0xEF => {
            format!(
                "{byte:02X} is no command: a table begins with Begin, 01. Is this a text table (--table) or \
                 hexadecimal text (--hex)?"
            )
        }
        None => format!("{byte:02X} is no command: a table begins with Begin, 01"),
        Some(last) => format!("{byte:02X} is no command, or {} has too few or too many bytes", told(laid, last)),
    })
}

/// A command that may not be where it is.
fn out_of_place(laid: &Laid) -> Option<String> {
    let (name, _) = command(*laid.behind().first()?)?;
    match (laid.behind()[0], laid.begin, laid.last) {
        (6, _, _) => Some("a wanted step comes before End, and belongs after it".to_string()),
        (1, Some((first, _)), _) => Some(format!("Begin is there already ({})", laid.input.mention(first))),
        (_, None, _) => Some(format!("{name} comes before Begin, which comes first")),
        (3, _, Some(last)) => {
            Some(format!("a span comes after its drive or the drive's span before, not after {}", told(laid, last)))
        }
        _ => None,
    }
}

/// A 33rd part, or a ninth span.
fn too_many(laid: &Laid) -> Option<String> {
    let parts = laid.parts.len();
    match laid.command()? {
        Command::Part { .. } => Some(format!("{} is the 33rd part: a table has at most 32", laid.name(parts))),
        Command::Span { ticks } => {
            let drive = laid.name(parts.saturating_sub(1));
            Some(format!("{ticks} is the ninth span of {drive}: a drive has at most 8 spans"))
        }
        _ => None,
    }
}

/// A span that is not above the one before.
fn not_rising(laid: &Laid) -> Option<String> {
    let spans = &laid.parts.last()?.spans;
    let drive = laid.name(laid.parts.len() - 1);
    let Command::Span { ticks } = laid.command()? else { return None };
    let (place, before) = (spans.len() + 1, spans.last()?);
    Some(format!("{ticks}, span {place} of {drive}, is not above the one before, {before}: sort the spans"))
}
