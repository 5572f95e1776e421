//! The refusals: document 01's numbers, and those that later requests added, each with its meaning and what to do about
//! it. The table in docs/MANUAL.md is tested against this list, and this list against crates/refusals.
use std::error::Error;
use std::fmt;

/// A refusal. Its code is its number.
#[derive(Clone, Copy, Debug, PartialEq, Eq, Hash)]
#[repr(u64)]
#[non_exhaustive]
pub enum Refusal {
    /// The stream is cut.
    Cut = 1,
    /// The command byte is unknown.
    UnknownCommand = 2,
    /// The command is out of place.
    OutOfPlace = 3,
    /// An operand is out of its range.
    OutOfRange = 5,
    /// There are too many parts or spans.
    TooMany = 6,
    /// A wire names what is not there.
    NotThere = 7,
    /// The port is wired already.
    AlreadyWired = 8,
    /// The table has no parts.
    NoParts = 9,
    /// Some P is too long.
    PeriodTooLong = 10,
    /// There is a loop.
    Loop = 11,
    /// A span does not rise.
    SpanNotRising = 12,
    /// The wanted step is out of its range.
    WantedOutOfRange = 20,
    /// Some part is due at the last microstep.
    DueAtLastMicrostep = 21,
    /// No step is accepted by all.
    NoStepAccepted = 22,
    /// The step may lead past the last tick.
    PastLastTick = 23,
    /// The model is not sound.
    NotSound = 24,
    /// A lent buffer is too short.
    TooShort = 25,
    /// The line cannot be printed.
    NotPrintable = 26,
}

/// All refusals, by their numbers, with what each means and what to do about it.
const TEXTS: [(Refusal, &str, &str); 18] = [
    (
        Refusal::Cut,
        "the stream ends before End, or inside a command",
        "look for bytes that are missing at the end, or an operand of the wrong width before the position",
    ),
    (Refusal::UnknownCommand, "an unknown command byte", "an operand before it is too long or too short"),
    (
        Refusal::OutOfPlace,
        "a command out of place: Begin not first or twice, a span not after a drive, `06` before End, \
         a table's command in the score",
        "move it",
    ),
    (
        Refusal::OutOfRange,
        "an operand out of its range, an unknown kind or preference, or an operand that the kind does not name \
         is not 0",
        "see the table of kinds",
    ),
    (Refusal::TooMany, "a 33rd part or a ninth span", "split the table, or leave the span out"),
    (
        Refusal::NotThere,
        "a wire names a part or port that is not there (yet)",
        "name a port that the kind has; in bytes, put the wire after both its parts",
    ),
    (Refusal::AlreadyWired, "the port is wired already", "join the two sources by an adder"),
    (Refusal::NoParts, "no parts", "add one"),
    (Refusal::PeriodTooLong, "some P is above 10^18", "a smaller p, or magnitudes that lie closer together"),
    (
        Refusal::Loop,
        "a loop of wires into direct ports (gain, adder, hold, sampler, port 1 of a reset integrator)",
        "put a delay or an integrator into the loop",
    ),
    (Refusal::SpanNotRising, "a span that is not above the one before", "sort the spans"),
    (Refusal::WantedOutOfRange, "a wanted step of 0 or above 10^9", "want 1 to 10^9"),
    (
        Refusal::DueAtLastMicrostep,
        "some part is due at microstep 999",
        "parts set each other off without end: look for a delay in a ring, or a constant into a delay",
    ),
    (
        Refusal::NoStepAccepted,
        "no part is due and no step above 0 is accepted by all",
        "want a longer step, or give the drives spans that meet each other and what is wanted",
    ),
    (Refusal::PastLastTick, "the step may lead past tick 10^18", "want less"),
    (
        Refusal::NotSound,
        "the model is not sound; any sound model is accepted, altered or not",
        "hand in the model of the answer before, or one that keeps the rules of a sound model",
    ),
    (
        Refusal::TooShort,
        "a lent buffer is too short; nothing is written, and the writing calls (`save`, `sheet`, those of \
         `write_lines`) return the length needed",
        "lend a longer one",
    ),
    (
        Refusal::NotPrintable,
        "a part chosen for a sheet line does not exist, or a number of the committed answer handed in is wider than \
         its field",
        "choose parts of the table; hand in the answer as the call gave it",
    ),
];

impl Refusal {
    /// All refusals, by their numbers.
    pub fn all() -> impl Iterator<Item = Refusal> {
        TEXTS.iter().map(|&(refusal, _, _)| refusal)
    }

    /// The refusal with a number; none where it is no refusal's, as 0.
    pub fn of_number(number: u64) -> Option<Refusal> {
        Refusal::all().find(|refusal| refusal.number() == number)
    }

    /// Its number.
    pub fn number(self) -> u64 {
        self as u64
    }

    /// What it means.
    pub fn meaning(self) -> &'static str {
        self.texts().0
    }

    /// What to do about it.
    pub fn advice(self) -> &'static str {
        self.texts().1
    }

    /// What it means and what to do about it.
    fn texts(self) -> (&'static str, &'static str) {
        let (_, meaning, advice) = TEXTS[Refusal::all().take_while(|&other| other != self).count()];
        (meaning, advice)
    }

    /// The refusal that a call answered. No exported call answers another number, by its contract.
    pub(crate) fn answered(number: u64) -> Refusal {
        Refusal::of_number(number).unwrap_or_else(|| panic!("no call answers {number}"))
    }
}

/// `refused N: MEANING`.
impl fmt::Display for Refusal {
    fn fmt(&self, f: &mut fmt::Formatter<'_>) -> fmt::Result {
        write!(f, "refused {}: {}", self.number(), self.meaning())
    }
}

impl Error for Refusal {}

/// A refused load, or a refused command of a score: at which byte of the stream, and why.
#[derive(Clone, Copy, Debug, PartialEq, Eq)]
pub struct RefusedAt {
    pub refusal: Refusal,
    pub position: usize,
}

/// `refused N at POSITION: MEANING`.
impl fmt::Display for RefusedAt {
    fn fmt(&self, f: &mut fmt::Formatter<'_>) -> fmt::Result {
        write!(f, "refused {} at {}: {}", self.refusal.number(), self.position, self.refusal.meaning())
    }
}

impl Error for RefusedAt {}
