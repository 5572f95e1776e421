//! The exported calls on words that are lent: what they are handed, what they answer and what they leave.

use crate::words::*;
use cases::random::Random;

/// The number of a call whose words are too few for what it has to write.
pub const TOO_SHORT: u64 = 25;

/// How many words the table of so many parts has, and a state.
pub fn table_words(parts: usize) -> usize {
    HEAD + TABLE_RECORD * parts
}

/// The words of a state of so many parts.
pub fn state_words(parts: usize) -> usize {
    HEAD + STATE_RECORD * parts
}

/// What a load leaves: its number, and the words of the table, of the state and of the answer.
pub struct Load {
    pub code: u64,
    pub table: Vec<u64>,
    pub state: Vec<u64>,
    pub out: Vec<u64>,
}

/// Loads a stream into so many words of each, all `fill` before.
pub fn load(stream: &[u8], [table, state, out]: [usize; 3], fill: u64) -> Load {
    let [mut table, mut state, mut out] = [table, state, out].map(|length| vec![fill; length]);
    let code = dozhumek::load_into(stream, &mut table, &mut state, &mut out);
    Load { code, table, state, out }
}

impl Load {
    /// Whether the words of the table and of the state are all `fill` still.
    pub fn kept(&self, fill: u64) -> bool {
        self.table.iter().chain(&self.state).all(|&word| word == fill)
    }
}

/// An exported call on a table, an old state and a wanted step, into a new state and an answer.
type Exported = fn(&[u64], &[u64], u64, &mut [u64], &mut [u64]) -> u64;

/// Such a call, with the names of its tries on too few words and with every room for its answer.
pub struct Call {
    into: Exported,
    pub of_too_few: &'static str,
    pub into_too_few: &'static str,
    pub barred_into_too_few: &'static str,
    pub with_any_room: &'static str,
    pub refused_with_any_room: &'static str,
}

pub const ADVANCE: Call = Call {
    into: dozhumek::advance_into,
    of_too_few: "advance of too few words",
    into_too_few: "advance into too few words",
    barred_into_too_few: "barred advance into too few words",
    with_any_room: "advance with any room for its answer",
    refused_with_any_room: "refused advance with any room for its answer",
};

pub const PREVIEW: Call = Call {
    into: dozhumek::preview_into,
    of_too_few: "preview of too few words",
    into_too_few: "preview into too few words",
    barred_into_too_few: "barred preview into too few words",
    with_any_room: "preview with any room for its answer",
    refused_with_any_room: "refused preview with any room for its answer",
};

/// What such a call leaves: its number, and the words of the new state and of the answer.
pub struct Left {
    pub code: u64,
    pub new: Vec<u64>,
    pub out: Vec<u64>,
}

impl Call {
    /// The call on the model of these words, into so many of each, all `fill` before.
    pub fn made(&self, table: &[u64], old: &[u64], wanted: u64, [new, out]: [usize; 2], fill: u64) -> Left {
        let [mut new, mut out] = [new, out].map(|length| vec![fill; length]);
        let code = (self.into)(table, old, wanted, &mut new, &mut out);
        Left { code, new, out }
    }
}

impl Left {
    /// Whether the words of the new state from a place on are all `fill` still.
    pub fn kept_from(&self, from: usize, fill: u64) -> bool {
        self.new[from..].iter().all(|&word| word == fill)
    }

    /// Fails unless the answer is these numbers, of which those that fit are written.
    pub fn says(&self, counts: &[u64; 5], fill: u64) -> Result<(), String> {
        if self.code == counts[0] && fits(&self.out, counts, fill) {
            return Ok(());
        }
        let said = &self.out;
        Err(format!(
            "number, step, rounds, revisions and ceiling are {said:?} instead of {counts:?}, and {} is answered",
            self.code
        ))
    }

    /// Fails unless the call is barred by a number: counts of 0, and no word of the new state written.
    pub fn bars(&self, number: u64, fill: u64) -> Result<(), String> {
        self.says(&[number, 0, 0, 0, 0], fill)?;
        if !self.kept_from(0, fill) {
            return Err("a call that is barred writes a state".to_string());
        }
        Ok(())
    }
}

/// Whether these words, all `fill` before, hold as much of an answer as they have room for, and `fill` after it.
pub fn fits(out: &[u64], answer: &[u64], fill: u64) -> bool {
    out.iter().enumerate().all(|(at, &word)| word == answer.get(at).copied().unwrap_or(fill))
}

/// How many words more than are needed.
pub fn spare(random: &mut Random) -> usize {
    random.pick(&[0, 0, 0, 1, 100])
}

/// Fewer words than are needed.
pub fn fewer(needed: usize, random: &mut Random) -> usize {
    let any = random.below(needed);
    random.pick(&[0, 1.min(needed - 1), needed - 1, needed - 1, any])
}

/// The words of a table and of a state of so many parts, too few of either or of both.
pub fn cut<'a>(table: &'a [u64], state: &'a [u64], parts: usize, random: &mut Random) -> (&'a [u64], &'a [u64]) {
    let which = random.below(3);
    let table = if which == 1 { table } else { &table[..fewer(table_words(parts), random)] };
    let state = if which == 0 { state } else { &state[..fewer(state_words(parts), random)] };
    (table, state)
}

/// The words of a part, by the binding's record of it.
fn part_words(part: &dozhumek::Part) -> [u64; PART_WORDS] {
    let mut words = [0; PART_WORDS];
    words[KIND] = part.kind as u64;
    words[PREFERENCE] = part.preference.into();
    (words[A], words[B], words[P]) = (part.a as u64, part.b as u64, part.p.into());
    words[SPAN_COUNT] = part.span_count;
    for (at, span) in part.spans.into_iter().enumerate() {
        words[FIRST_SPAN + at] = span.into();
    }
    for (at, port) in [part.port0, part.port1].into_iter().enumerate() {
        words[PORT + at] = port.map_or(0, |source| u64::from(source) + 1);
    }
    (words[RATIO], words[LOCAL]) = (part.ratio, part.local);
    (words[HELD], words[SPEED]) = (part.held as u64, part.speed as u64);
    for (at, signal) in [(SIGNAL, part.signal), (OUTPUT, part.output)] {
        (words[at], words[at + 1]) = signal.map_or((0, 0), |value| (1, value as u64));
    }
    (words[SIDE], words[MARK]) = (part.side as u64, part.mark as u64);
    words
}

/// Fails unless the binding's records of a model say what its words do, and none where a part's words spell none.
pub fn same_records(model: &dozhumek::Model, words: &Words) -> Result<(), String> {
    let head = [model.magnitude(), model.count(), model.t(), model.n()];
    if head != words.0[..ORDER] {
        return Err(format!("the binding's magnitude, count, t and n are {head:?}"));
    }
    let words = words.plain();
    if words.0[COUNT] > PARTS as u64 {
        let none = model.parts().is_none() && model.outputs().is_none() && model.order().is_none();
        return if none { Ok(()) } else { Err("the binding has parts that there is no room for".to_string()) };
    }
    let count = words.count();
    let order: Option<Vec<u16>> = words.0[ORDER..][..count].iter().map(|&number| u16::try_from(number).ok()).collect();
    let same = |number: usize| match model.part(number) {
        Some(part) => part_words(&part) == words.part(number),
        None => !words.part_spelled(number),
    };
    let outputs = model.parts().map(|parts| parts.iter().map(|part| part.output).collect::<Vec<_>>());
    if model.order() != order || model.outputs() != outputs || model.part(count).is_some() || !(0..count).all(same) {
        return Err("the binding's records say something else than the words".to_string());
    }
    Ok(())
}
