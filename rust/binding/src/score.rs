//! The score after a table: its wanted steps, one after the other. This is plain Rust; the proved reader is the crate
//! `score`, which the programs use.
use crate::refusal::{Refusal, RefusedAt};

/// The command byte of a wanted step, and how many bytes the command has.
const WANTED: u8 = 6;
const COMMAND: usize = 5;

/// The wanted steps of a stream from a position on. A byte that begins none, or a command that is cut, is refused at
/// its position, and ends the score.
///
/// ```
/// use dozhumek::{Refusal, RefusedAt, Score};
/// let stream = [5, 6, 8, 0, 0, 0, 6, 1, 0, 0, 0, 7];
/// let score: Vec<_> = Score::new(&stream, 1).collect();
/// let refused = RefusedAt { refusal: Refusal::UnknownCommand, position: 11 };
/// assert_eq!(score, [Ok(8), Ok(1), Err(refused)]);
/// ```
#[derive(Clone, Debug)]
pub struct Score<'a> {
    stream: &'a [u8],
    position: usize,
}

impl<'a> Score<'a> {
    /// The score of a stream from a position on, which for a stream that was loaded is the one that `load` answers.
    pub fn new(stream: &'a [u8], position: usize) -> Score<'a> {
        Score { stream, position: position.min(stream.len()) }
    }

    /// The position of the next command: the stream's length where none follows.
    pub fn position(&self) -> usize {
        self.position
    }
}

impl Iterator for Score<'_> {
    type Item = Result<u32, RefusedAt>;

    fn next(&mut self) -> Option<Self::Item> {
        let position = self.position;
        let refusal = match &self.stream[position..] {
            [] => return None,
            &[WANTED, a, b, c, d, ..] => {
                self.position += COMMAND;
                return Some(Ok(u32::from_le_bytes([a, b, c, d])));
            }
            [WANTED, ..] => Refusal::Cut,
            [1..=5, ..] => Refusal::OutOfPlace,
            _ => Refusal::UnknownCommand,
        };
        self.position = self.stream.len();
        Some(Err(RefusedAt { refusal, position }))
    }
}
