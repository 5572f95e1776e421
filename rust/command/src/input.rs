//! What is rehearsed: the bytes of a stream, and where each of its commands is in what a person wrote. A text table
//! gives lines and names, hexadecimal text gives lines, and bytes give neither.
use crate::command::{commands, Command};
use crate::kinds::default_name;

/// The form of what was written.
#[derive(Clone, Copy, Debug, PartialEq, Eq)]
pub enum Form {
    Bytes,
    Hex,
    Table,
}

/// What the score says: a wanted step, so many times, or wanted steps until a tick is reached.
#[derive(Clone, Copy, Debug, PartialEq, Eq)]
pub enum Play {
    Want { step: u32, times: u64 },
    Until { tick: u64, step: u64 },
}

/// A stream, and what is known of how it was written. Of a text table `bytes` is the table alone, up to and with End,
/// and `score` the score with the line of each entry; of other forms the score is in the bytes, and `score` is empty.
#[derive(Clone, Debug)]
pub struct Input {
    pub title: String,
    pub form: Form,
    pub bytes: Vec<u8>,
    /// The positions at which another line begins, each with that line, in rising order; 0 for what no line has.
    pub lines: Vec<(usize, usize)>,
    pub names: Vec<String>,
    pub score: Vec<(usize, Play)>,
}

impl Input {
    /// A stream of bytes. Its parts are named by their kinds and numbers.
    pub fn of_bytes(title: &str, bytes: Vec<u8>) -> Input {
        let names = default_names(&bytes);
        Input { title: title.to_string(), form: Form::Bytes, bytes, lines: Vec::new(), names, score: Vec::new() }
    }

    /// The line on which the byte at a position was written; none in bytes, and none of what no line of a text table
    /// has.
    pub fn line(&self, position: usize) -> Option<usize> {
        let behind = self.lines.partition_point(|&(at, _)| at <= position);
        behind.checked_sub(1).map(|entry| self.lines[entry].1).filter(|&line| line != 0)
    }

    /// Where the byte at a position was written, as a message begins: the title, and the line if there is one.
    pub fn place(&self, position: usize) -> String {
        match self.line(position) {
            Some(line) => format!("{}:{line}", self.title),
            None => self.title.clone(),
        }
    }

    /// The same, as a message mentions it in passing: the line of a text table, the byte of other forms.
    pub fn mention(&self, position: usize) -> String {
        match (self.form, self.line(position)) {
            (Form::Table, Some(line)) => format!("line {line}"),
            (_, Some(line)) => format!("byte {position}, line {line}"),
            (_, None) => format!("byte {position}"),
        }
    }

    /// The name of a part, whether the table has it or not.
    pub fn name(&self, part: usize) -> String {
        self.names.get(part).cloned().unwrap_or_else(|| format!("part {part}"))
    }
}

/// The names of the parts of a stream that gives them none.
fn default_names(bytes: &[u8]) -> Vec<String> {
    let parts =
        commands(bytes).take_while(|(_, command)| *command != Command::End).filter_map(|(_, command)| match command {
            Command::Part { kind, .. } => Some(kind),
            _ => None,
        });
    parts.enumerate().map(|(number, kind)| default_name(kind, number)).collect()
}
