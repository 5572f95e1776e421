//! The messages on standard error, and there, on a terminal, the progress of a long rehearsal.
use crate::failure::Failure;
use std::io::{self, IsTerminal, Write};
use std::time::{Duration, Instant};

/// The time between two lines of progress, and the calls between two looks at the clock.
const PAUSE: Duration = Duration::from_millis(500);
const CALLS: u64 = 128;

/// Where messages go, whether progress is shown, and whether a line of it is there; the calls so far, and the last
/// message.
pub struct Messages {
    listener: Box<dyn Write>,
    showing: bool,
    shown: bool,
    calls: u64,
    looked: Instant,
    last: String,
}

impl Default for Messages {
    fn default() -> Messages {
        Messages::new()
    }
}

impl Messages {
    /// Progress is shown where standard error is a terminal and the lines themselves go elsewhere.
    pub fn new() -> Messages {
        let showing = io::stderr().is_terminal() && !io::stdout().is_terminal();
        Messages { showing, ..Messages::to(Box::new(io::stderr())) }
    }

    /// Progress is shown wherever standard error is a terminal: while something is built no lines are printed.
    pub fn of_build() -> Messages {
        Messages { showing: io::stderr().is_terminal(), ..Messages::to(Box::new(io::stderr())) }
    }

    /// Messages alone, to a listener.
    pub fn to(listener: Box<dyn Write>) -> Messages {
        Messages { listener, showing: false, shown: false, calls: 0, looked: Instant::now(), last: String::new() }
    }

    /// Tells a message, unless it was the last one too: what one line wants again at the same point is refused again,
    /// and told once.
    pub fn say(&mut self, message: &str) {
        if self.last == message {
            return;
        }
        self.clear();
        let _ = writeln!(self.listener, "{message}");
        self.last = message.to_string();
    }

    /// Tells a failure, and gives its status.
    pub fn fail(&mut self, failure: &Failure) -> u8 {
        self.say(&failure.message);
        failure.status
    }

    /// Counts a call, and now and then shows the tick that it led to, and the one that is to be reached.
    pub fn called(&mut self, tick: u64, until: Option<u64>) {
        self.calls += 1;
        if !self.showing || !self.calls.is_multiple_of(CALLS) || self.looked.elapsed() < PAUSE {
            return;
        }
        self.looked = Instant::now();
        let goal = until.map(|until| format!(" of {until}")).unwrap_or_default();
        self.progress(&format!("rehearse: tick {tick}{goal}, {} calls", self.calls));
    }

    /// Shows a line of progress in place of the one before, where progress is shown.
    pub fn progress(&mut self, line: &str) {
        if self.showing {
            let _ = write!(self.listener, "\r\x1b[K{line}");
            let _ = self.listener.flush();
            self.shown = true;
        }
    }

    /// Takes the line of progress away.
    pub fn clear(&mut self) {
        if std::mem::take(&mut self.shown) {
            let _ = write!(self.listener, "\r\x1b[K");
        }
    }
}
