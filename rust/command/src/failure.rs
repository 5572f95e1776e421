//! The statuses of the command, and what ends it before its work is done.

/// The statuses, and that of a reader of a pipe that has gone.
pub const DONE: u8 = 0;
pub const UNBUILT: u8 = 1;
pub const BAD: u8 = 2;
pub const UNWRITTEN: u8 = 3;
pub const NO_TABLE: u8 = 4;
pub const REFUSED: u8 = 5;
pub const READER_GONE: u8 = 141;

/// What is told where nothing was saved.
pub const UNSAVED: &str = "no table is saved";

/// A status, and the message that goes with it.
#[derive(Clone, Debug, PartialEq, Eq)]
pub struct Failure {
    pub status: u8,
    pub message: String,
}

impl Failure {
    /// A failure, told by this command.
    pub fn new(status: u8, message: impl AsRef<str>) -> Failure {
        Failure { status, message: format!("rehearse: {}", message.as_ref()) }
    }
}
