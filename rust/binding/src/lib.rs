//! The rehearsal master's calls `load`, `advance`, `preview`, `save` and `sheet`. The calls themselves are the proved
//! ones of the static library, and work in words of 64 bits that they are lent (`load_into`, `advance_into`,
//! `preview_into`, `save_into`, `sheet_into`); here is the owner of those words, and what they say as typed records.
//! The crate `words_store` of the repository defines the words, in `specs/ModelIn.antt` and `specs/Form.antt`.
//!
//! ```
//! use dozhumek::{load, Refusal, Score};
//! // A constant of 3, and a score of two wanted steps, 7 and 0.
//! let stream = [1, 0, 2, 0, 255, 3, 0, 0, 0, 0, 0, 0, 0, 0, 0, 0, 0, 5, 6, 7, 0, 0, 0, 6, 0, 0, 0, 0];
//! let loaded = load(&stream)?;
//! let mut model = loaded.model;
//! let mut refused = Vec::new();
//! for wanted in Score::new(&stream, loaded.position) {
//!     match model.advance(wanted?.into()) {
//!         Ok(answer) => println!("{} ticks on, at {}: {:?}", answer.step, model.t(), model.outputs()),
//!         Err(barred) => refused.push(barred.refusal),
//!     }
//! }
//! assert_eq!(model.t(), 7);
//! assert_eq!(refused, [Refusal::WantedOutOfRange]);
//! # Ok::<(), dozhumek::RefusedAt>(())
//! ```
mod calls;
mod part;
mod refusal;
mod score;

pub use calls::{advance_into, load_into, preview_into, save_into, sheet_into};
pub use part::{Kind, Mark, Part, Side, KINDS};
pub use refusal::{Refusal, RefusedAt};
pub use score::Score;

use std::error::Error;
use std::fmt;

/// How many parts a model has room for, and how many spans a part.
pub const PARTS: usize = 32;
pub const SPANS: usize = 8;

/// How many words a table has for each part, and a state, and how many either has before them.
pub const TABLE_RECORD: usize = 18;
pub const STATE_RECORD: usize = 9;
pub const HEAD: usize = 2;

/// The last tick, the last microstep, and the most that can be wanted of a step.
pub const LAST_TICK: u64 = 1_000_000_000_000_000_000;
pub const LAST_MICROSTEP: u64 = 999;
pub const MOST_WANTED: u64 = 1_000_000_000;

/// How many bytes a sheet's line has, with its line feed.
pub const SHEET_LINE: usize = 79;

/// How many words the table of a model of so many parts has.
pub const fn table_words(parts: usize) -> usize {
    HEAD + TABLE_RECORD * parts
}

/// How many words a state of a model of so many parts has.
pub const fn state_words(parts: usize) -> usize {
    HEAD + STATE_RECORD * parts
}

/// A model: the words of its table, of its state, and of the state that the next advance writes. An advance that is
/// committed exchanges the two states, and no other changes anything.
#[derive(Clone, Debug)]
pub struct Model {
    table: Vec<u64>,
    state: Vec<u64>,
    next: Vec<u64>,
}

/// An accepted load: the model, and the position after End, where the score begins.
#[derive(Clone, Debug)]
pub struct Loaded {
    pub model: Model,
    pub position: usize,
}

/// What advancing answers: the number (0: committed), and the counts.
#[derive(Clone, Copy, Debug, PartialEq, Eq)]
pub struct Answer {
    pub number: u64,
    pub step: u64,
    pub rounds: u64,
    pub revisions: u64,
    pub ceiling: u64,
}

/// A refused advance or preview: why, and the whole answer, whose counts say how far the search had come. The model is
/// kept.
#[derive(Clone, Copy, Debug, PartialEq, Eq)]
pub struct Refused {
    pub refusal: Refusal,
    pub answer: Answer,
}

impl fmt::Display for Refused {
    fn fmt(&self, f: &mut fmt::Formatter<'_>) -> fmt::Result {
        self.refusal.fmt(f)
    }
}

impl Error for Refused {}

/// What previewing answers where an advance would be committed: its answer, and the model that it would then have.
#[derive(Clone, Debug)]
pub struct Preview {
    pub answer: Answer,
    pub model: Model,
}

/// The table at the start of a stream, loaded.
pub fn load(stream: &[u8]) -> Result<Loaded, RefusedAt> {
    let mut table = vec![0; table_words(PARTS)];
    let mut state = vec![0; state_words(PARTS)];
    let mut out = [0; 2];
    let number = load_into(stream, &mut table, &mut state, &mut out);
    let position = out[1] as usize;
    if number != 0 {
        return Err(RefusedAt { refusal: Refusal::answered(number), position });
    }
    let count = table[1] as usize;
    table.truncate(table_words(count));
    table.shrink_to_fit();
    state.truncate(state_words(count));
    state.shrink_to_fit();
    Ok(Loaded { model: Model::from_words(table, state), position })
}

impl Answer {
    /// The answer that a call wrote.
    fn of_words([number, step, rounds, revisions, ceiling]: [u64; 5]) -> Answer {
        Answer { number, step, rounds, revisions, ceiling }
    }

    /// The words of the answer, as a call writes them.
    fn words(&self) -> [u64; 5] {
        [self.number, self.step, self.rounds, self.revisions, self.ceiling]
    }

    /// The answer where it is committed, and else its refusal.
    fn committed(self) -> Result<Answer, Refused> {
        match self.number {
            0 => Ok(self),
            number => Err(Refused { refusal: Refusal::answered(number), answer: self }),
        }
    }
}

impl Model {
    /// The model in these words, whatever they are. Where they spell no sound model an advance answers 24.
    pub fn from_words(table: Vec<u64>, state: Vec<u64>) -> Model {
        let next = state.clone();
        Model { table, state, next }
    }

    /// One advance, by at most `wanted`: the model then is at the new point. Where it is refused it is kept.
    pub fn advance(&mut self, wanted: u64) -> Result<Answer, Refused> {
        let mut out = [0; 5];
        advance_into(&self.table, &self.state, wanted, &mut self.next, &mut out);
        let answer = Answer::of_words(out).committed()?;
        std::mem::swap(&mut self.state, &mut self.next);
        Ok(answer)
    }

    /// What an advance by at most `wanted` would answer. The model is kept, whatever comes of it.
    pub fn preview(&self, wanted: u64) -> Result<Preview, Refused> {
        let mut state = self.state.clone();
        let mut out = [0; 5];
        preview_into(&self.table, &self.state, wanted, &mut state, &mut out);
        let answer = Answer::of_words(out).committed()?;
        Ok(Preview { answer, model: Model::from_words(self.table.clone(), state) })
    }

    /// The bytes of the model's table, from which `load` makes the fresh model again, wherever this one is. Where
    /// it is not sound it has none, and is refused.
    ///
    /// ```
    /// // A constant of 3.
    /// let stream = [1, 0, 2, 0, 255, 3, 0, 0, 0, 0, 0, 0, 0, 0, 0, 0, 0, 5];
    /// let mut model = dozhumek::load(&stream)?.model;
    /// model.advance(7)?;
    /// assert_eq!(model.save()?, stream);
    /// # Ok::<(), Box<dyn std::error::Error>>(())
    /// ```
    pub fn save(&self) -> Result<Vec<u8>, Refusal> {
        // With no room at all the length is told, unless something else bars the call.
        let mut out = [0; 2];
        save_into(&self.table, &self.state, &mut [], &mut out);
        let mut bytes = vec![0; out[1] as usize];
        match save_into(&self.table, &self.state, &mut bytes, &mut out) {
            0 => Ok(bytes),
            number => Err(Refusal::answered(number)),
        }
    }

    /// The sheet's line of an answer whose model this is, with the outputs of three parts: t in 19 columns, n in 3,
    /// step in 10, rounds in 4, revisions in 2 and the outputs in 11 each, or `refused` and the number; then a line
    /// feed. Refused is a model that is not sound, a part that is not there, and a number of a committed answer that is
    /// wider than its field, which none is that an advance or a preview of a sound model gives.
    ///
    /// ```
    /// // A constant of 3.
    /// let stream = [1, 0, 2, 0, 255, 3, 0, 0, 0, 0, 0, 0, 0, 0, 0, 0, 0, 5];
    /// let mut model = dozhumek::load(&stream)?.model;
    /// let answer = model.advance(7)?;
    /// let due = format!("{:19} {:3} {:10} {:4} {:2} {:11} {:11} {:11}\n", 7, 0, 7, 1, 0, 3, 3, 3);
    /// assert_eq!(model.sheet(&answer, [0, 0, 0])?, due.as_bytes());
    /// assert_eq!(model.sheet(&answer, [0, 0, 1]), Err(dozhumek::Refusal::NotPrintable));
    /// # Ok::<(), Box<dyn std::error::Error>>(())
    /// ```
    pub fn sheet(&self, answer: &Answer, choice: [u64; 3]) -> Result<[u8; SHEET_LINE], Refusal> {
        let mut line = [0; SHEET_LINE];
        match sheet_into(&self.table, &self.state, &answer.words(), choice, &mut line, &mut [0; 2]) {
            0 => Ok(line),
            number => Err(Refusal::answered(number)),
        }
    }

    /// The table's words.
    pub fn table(&self) -> &[u64] {
        &self.table
    }

    /// The state's words.
    pub fn state(&self) -> &[u64] {
        &self.state
    }

    /// The default magnitude; 0 where its word is not there, as for every number here.
    pub fn magnitude(&self) -> u64 {
        word(&self.table, 0)
    }

    /// How many parts are in use.
    pub fn count(&self) -> u64 {
        word(&self.table, 1)
    }

    /// The tick of the point.
    pub fn t(&self) -> u64 {
        word(&self.state, 0)
    }

    /// The microstep of the point.
    pub fn n(&self) -> u64 {
        word(&self.state, 1)
    }

    /// The part with a number. None where no such part is in use, or its words spell none.
    pub fn part(&self, number: usize) -> Option<Part> {
        if number as u64 >= self.count().min(PARTS as u64) {
            return None;
        }
        let table = self.table.get(HEAD + TABLE_RECORD * number..)?.get(..TABLE_RECORD)?;
        let state = self.state.get(HEAD + STATE_RECORD * number..)?.get(..STATE_RECORD)?;
        Part::of_words(table.try_into().ok()?, state.try_into().ok()?)
    }

    /// The parts in use. None where there are more than there is room for, or a part's words spell none.
    pub fn parts(&self) -> Option<Vec<Part>> {
        (0..self.in_use()?).map(|number| self.part(number)).collect()
    }

    /// The outputs of the parts in use, a signal each, which is `None` where it is absent. None as for `parts`.
    pub fn outputs(&self) -> Option<Vec<Option<i64>>> {
        (0..self.in_use()?).map(|number| self.part(number).map(|part| part.output)).collect()
    }

    /// The part order. None where there are more parts than there is room for, or a word of it is no part's number.
    pub fn order(&self) -> Option<Vec<u16>> {
        let last = |number: usize| self.table.get(HEAD + TABLE_RECORD * number + TABLE_RECORD - 1);
        (0..self.in_use()?).map(|number| u16::try_from(*last(number)?).ok()).collect()
    }

    /// How many parts are in use. None where there are more than there is room for.
    fn in_use(&self) -> Option<usize> {
        usize::try_from(self.count()).ok().filter(|&count| count <= PARTS)
    }
}

/// The word with this number, 0 where it is not there.
fn word(words: &[u64], number: usize) -> u64 {
    words.get(number).copied().unwrap_or(0)
}
