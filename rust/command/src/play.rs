//! Plays a score: the table is loaded, and each wanted step is an advance. `until` is played by calls, one after the
//! other. Printed are document 01's lines; what is refused is told in words as well, by where it was written.
use crate::columns::Columns;
use crate::input::{Form, Input, Play};
use crate::messages::Messages;
use crate::why;
use crate::why::counted;
use crate::writer::play_text;
use dozhumek::{Answer, Loaded, Model, Refused, RefusedAt, Score};
use std::io::{self, Write};

/// An entry of a score, the line on which it is, if it is on one, and how a message about it begins.
pub struct Entry {
    pub line: Option<usize>,
    pub place: String,
    pub play: Play,
}

/// The entries of a input's score, from the position after its table on, and then `until`, if there is one. A bad byte
/// of the score ends it all.
pub fn entries(
    input: &Input,
    position: usize,
    until: Option<Play>,
) -> impl Iterator<Item = Result<Entry, RefusedAt>> + '_ {
    let written = input
        .score
        .iter()
        .map(|&(line, play)| Ok(Entry { line: Some(line), place: format!("{}:{line}", input.title), play }));
    let bytes = if input.form == Form::Table { &[] } else { &input.bytes[..] };
    let mut score = Score::new(bytes, position);
    let spelled = std::iter::from_fn(move || {
        let at = score.position();
        Some(score.next()?.map(|step| of_byte(input, at, step)))
    });
    let last = until.map(|play| Ok(Entry { line: None, place: "rehearse".to_string(), play }));
    let mut refused = false;
    written.chain(spelled).chain(last).take_while(move |entry| !std::mem::replace(&mut refused, entry.is_err()))
}

/// The entry of a wanted step at a position of a stream.
fn of_byte(input: &Input, at: usize, step: u32) -> Entry {
    let place = format!("{}: byte {at}", input.place(at));
    Entry { line: input.line(at), place, play: Play::Want { step, times: 1 } }
}

/// How a refusal at a position is told: by line alone where that is what was written.
pub fn refused_at(input: &Input, refused: &RefusedAt, position: usize, why: &str) -> String {
    let number = refused.refusal.number();
    match input.form {
        Form::Table => format!("{}: refused {number}: {why}", input.place(position)),
        _ => format!("{}: refused {number} at {}: {why}", input.place(position), refused.position),
    }
}

/// How a refused load is told.
pub fn told_load(input: &Input, refused: &RefusedAt) -> String {
    refused_at(input, refused, why::place_of(input, refused), &why::load_refused(input, refused))
}

/// A rehearsal that goes on: the model, what of it is shown, and whether anything was refused.
pub struct Rehearsal<'a> {
    pub input: &'a Input,
    pub model: Model,
    pub columns: Columns,
    pub refused: bool,
}

/// How a run of `until` ended.
pub struct Run {
    pub calls: u64,
    pub refused: Option<String>,
}

impl Rehearsal<'_> {
    /// One advance, with the refusal in words where it is refused.
    pub fn advance(&mut self, wanted: u64) -> Result<Answer, (Refused, String)> {
        self.model.advance(wanted).map_err(|refused| {
            self.refused = true;
            let why = why::advance_refused(self.input, &self.model, wanted, &refused);
            (refused, format!("refused {}: {why}", refused.refusal.number()))
        })
    }

    /// One advance and its line; in words what refused it.
    fn step(&mut self, wanted: u64, out: &mut dyn Write) -> io::Result<Option<String>> {
        let (answer, why) = match self.advance(wanted) {
            Ok(answer) => (answer, None),
            Err((refused, why)) => (refused.answer, Some(why)),
        };
        self.columns.line(&self.model, &answer, out)?;
        Ok(why)
    }

    /// Wants `step`, and no more than leads to the tick, until that is reached or a call is refused. Each call is made
    /// by `call`, which tells in words what refused it.
    pub fn until(
        &mut self,
        (tick, step): (u64, u64),
        messages: &mut Messages,
        mut call: impl FnMut(&mut Self, u64) -> io::Result<Option<String>>,
    ) -> io::Result<Run> {
        let mut calls = 0;
        while self.model.t() < tick {
            let wanted = step.min(tick - self.model.t());
            let refused = call(self, wanted)?;
            calls += 1;
            messages.called(self.model.t(), Some(tick));
            if refused.is_some() {
                return Ok(Run { calls, refused });
            }
        }
        Ok(Run { calls, refused: None })
    }

    /// How a run of `until` ended, in words.
    pub fn ended(&self, tick: u64, run: &Run) -> String {
        let (t, n, calls) = (self.model.t(), self.model.n(), run.calls);
        match &run.refused {
            Some(why) => format!("until {tick}: stopped at ({t}, {n}), at call {calls}: {why}"),
            None if calls == 0 => format!("until {tick}: the rehearsal is at ({t}, {n}) already"),
            None => format!("until {tick}: reached ({t}, {n}) by {}", counted(calls, "call")),
        }
    }

    /// Plays an entry of the score.
    fn entry(&mut self, entry: &Entry, out: &mut dyn Write, messages: &mut Messages) -> io::Result<()> {
        match entry.play {
            Play::Want { step, times } => {
                for _ in 0..times {
                    if let Some(why) = self.step(step.into(), out)? {
                        out.flush()?;
                        messages.say(&format!("{}: {why}", entry.place));
                    }
                    messages.called(self.model.t(), None);
                }
            }
            Play::Until { tick, step } => {
                let run = self.until((tick, step), messages, |rehearsal, wanted| rehearsal.step(wanted, out))?;
                out.flush()?;
                messages.say(&format!("{}: {}", entry.place, self.ended(tick, &run)));
            }
        }
        Ok(())
    }
}

/// Plays the score of a input that was loaded. Whether anything was refused.
pub fn play(
    input: &Input,
    loaded: Loaded,
    columns: Columns,
    until: Option<Play>,
    out: &mut dyn Write,
    messages: &mut Messages,
) -> io::Result<bool> {
    let mut rehearsal = Rehearsal { input, model: loaded.model, columns, refused: false };
    let mut entries = entries(input, loaded.position, until).peekable();
    if entries.peek().is_none() {
        messages.say(&format!("{}: no step is wanted: add a line, as want 8, or --until T --step S", input.title));
    }
    for entry in entries {
        match entry {
            Ok(entry) => rehearsal.entry(&entry, out, messages)?,
            Err(refused) => {
                score_line(&refused, out)?;
                out.flush()?;
                messages.say(&refused_at(input, &refused, refused.position, &why::score_refused(input, &refused)));
                if let Some(play) = until {
                    messages.say(&format!("rehearse: {}: not played, since the score has ended", play_text(&play)));
                }
                rehearsal.refused = true;
            }
        }
    }
    Ok(rehearsal.refused)
}

/// Writes the line of a refused load, or of a refused command of the score.
pub fn score_line(refused: &RefusedAt, out: &mut dyn Write) -> io::Result<()> {
    writeln!(out, "refused {} at {}", refused.refusal.number(), refused.position)
}
