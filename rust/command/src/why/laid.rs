//! What is in a stream before the command that a load refused: the parts with their spans, and the wires.
use crate::command::{commands, Command};
use crate::input::Input;
use crate::kinds::{of_number, KindWords};

/// A part, with the position of its command.
#[derive(Clone, Debug)]
pub struct LaidPart {
    pub position: usize,
    pub kind: u8,
    pub preference: u8,
    pub p: u32,
    pub spans: Vec<u32>,
}

impl LaidPart {
    /// The words for its kind.
    pub fn words(&self) -> Option<&'static KindWords> {
        of_number(self.kind)
    }
}

/// A wire, with the position of its command.
#[derive(Clone, Copy, Debug)]
pub struct LaidWire {
    pub position: usize,
    pub source: usize,
    pub receiver: usize,
    pub port: u8,
}

/// What is before a position of a stream, and the stream.
pub struct Laid<'a> {
    pub input: &'a Input,
    pub position: usize,
    pub begin: Option<(usize, u8)>,
    pub parts: Vec<LaidPart>,
    pub wires: Vec<LaidWire>,
    pub last: Option<(usize, Command)>,
}

impl<'a> Laid<'a> {
    /// What is before a position, and before End.
    pub fn before(input: &'a Input, position: usize) -> Laid<'a> {
        let position = position.min(input.bytes.len());
        let mut laid = Laid { input, position, begin: None, parts: Vec::new(), wires: Vec::new(), last: None };
        for (at, command) in commands(&input.bytes[..position]).take_while(|(_, command)| *command != Command::End) {
            laid.take(at, command);
            laid.last = Some((at, command));
        }
        laid
    }

    /// Takes a command in.
    fn take(&mut self, position: usize, command: Command) {
        match command {
            Command::Begin { magnitude } => self.begin = self.begin.or(Some((position, magnitude))),
            Command::Part { kind, preference, p, .. } => {
                self.parts.push(LaidPart { position, kind, preference, p, spans: Vec::new() });
            }
            Command::Span { ticks } => {
                if let Some(drive) = self.parts.last_mut() {
                    drive.spans.push(ticks);
                }
            }
            Command::Wire { source, receiver, port } => {
                let (source, receiver) = (source.into(), receiver.into());
                self.wires.push(LaidWire { position, source, receiver, port });
            }
            Command::End | Command::Want { .. } => {}
        }
    }

    /// The bytes at the position and after it.
    pub fn behind(&self) -> &'a [u8] {
        &self.input.bytes[self.position..]
    }

    /// The command at the position; none where it is unknown or cut.
    pub fn command(&self) -> Option<Command> {
        Command::read(self.behind())
    }

    /// The name of a part.
    pub fn name(&self, part: usize) -> String {
        self.input.name(part)
    }
}
