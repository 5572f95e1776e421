//! Small pieces of messages: lists, numbers of bytes, the names of commands, steps.
use crate::accepted::Steps;
use crate::command::Command;

/// Things in a row: `a`, `a and b`, `a, b and c`, with the word that joins the last two.
pub fn listed(things: &[String], joint: &str) -> String {
    match things {
        [] => String::new(),
        [one] => one.clone(),
        [before @ .., last] => format!("{} {joint} {last}", before.join(", ")),
    }
}

/// A count with what it counts: `1 byte`, `2 bytes`.
pub fn counted(count: u64, what: &str) -> String {
    format!("{count} {what}{}", if count == 1 { "" } else { "s" })
}

/// The name of a command, and how many bytes it has; none for a byte that begins no command.
pub fn command(byte: u8) -> Option<(&'static str, usize)> {
    // Zeros for its operands: no command has more of them.
    let mut bytes = [0; 16];
    bytes[0] = byte;
    let command = Command::read(&bytes)?;
    let name = match command {
        Command::Begin { .. } => "Begin",
        Command::Part { .. } => "Part",
        Command::Span { .. } => "Span",
        Command::Wire { .. } => "Wire",
        Command::End => "End",
        Command::Want { .. } => "the wanted step",
    };
    Some((name, command.length()))
}

/// Steps: `none`, `3`, `3 or 8`, `2, 5 to 6 or 9`.
pub fn steps(steps: &Steps) -> String {
    let interval = |&(low, high): &(u64, u64)| match low == high {
        true => low.to_string(),
        false => format!("{low} to {high}"),
    };
    match steps.intervals() {
        [] => "none".to_string(),
        intervals => listed(&intervals.iter().map(interval).collect::<Vec<_>>(), "or"),
    }
}
