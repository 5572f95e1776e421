//! The commands of a stream, to bytes and back: a byte, then operands of fixed width, the lowest byte first.

/// A command with its operands, in their ranges or not.
#[derive(Clone, Copy, Debug, PartialEq, Eq)]
pub enum Command {
    Begin { magnitude: u8 },
    Part { kind: u8, preference: u8, a: i32, b: i32, p: u32 },
    Span { ticks: u32 },
    Wire { source: u8, receiver: u8, port: u8 },
    End,
    Want { step: u32 },
}

/// The preference of a part that has none.
pub const NO_PREFERENCE: u8 = 255;

impl Command {
    /// Its bytes.
    pub fn bytes(&self) -> Vec<u8> {
        match *self {
            Command::Begin { magnitude } => vec![1, magnitude],
            Command::Part { kind, preference, a, b, p } => {
                let mut bytes = vec![2, kind, preference];
                bytes.extend(a.to_le_bytes());
                bytes.extend(b.to_le_bytes());
                bytes.extend(p.to_le_bytes());
                bytes
            }
            Command::Span { ticks } => with_operand(3, ticks),
            Command::Wire { source, receiver, port } => vec![4, source, receiver, port],
            Command::End => vec![5],
            Command::Want { step } => with_operand(6, step),
        }
    }

    /// The command at the front of some bytes; none where its byte is unknown or it is cut.
    pub fn read(bytes: &[u8]) -> Option<Command> {
        let four = |at: usize| bytes.get(at..at + 4).map(|four| [four[0], four[1], four[2], four[3]]);
        Some(match *bytes {
            [1, magnitude, ..] => Command::Begin { magnitude },
            [2, kind, preference, ..] => Command::Part {
                kind,
                preference,
                a: i32::from_le_bytes(four(3)?),
                b: i32::from_le_bytes(four(7)?),
                p: u32::from_le_bytes(four(11)?),
            },
            [3, ..] => Command::Span { ticks: u32::from_le_bytes(four(1)?) },
            [4, source, receiver, port, ..] => Command::Wire { source, receiver, port },
            [5, ..] => Command::End,
            [6, ..] => Command::Want { step: u32::from_le_bytes(four(1)?) },
            _ => return None,
        })
    }

    /// How many bytes it has.
    pub fn length(&self) -> usize {
        self.bytes().len()
    }
}

/// A command byte and an operand of four bytes.
fn with_operand(byte: u8, operand: u32) -> Vec<u8> {
    let mut bytes = vec![byte];
    bytes.extend(operand.to_le_bytes());
    bytes
}

/// The commands at the front of some bytes, each with its position, up to one that is unknown or cut.
pub fn commands(bytes: &[u8]) -> impl Iterator<Item = (usize, Command)> + '_ {
    let mut position = 0;
    std::iter::from_fn(move || {
        let command = Command::read(&bytes[position..])?;
        let at = position;
        position += command.length();
        Some((at, command))
    })
}
