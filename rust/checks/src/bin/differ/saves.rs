//! Saving: what the other program writes for a stream's table, and what comes of these bytes when both load them again.

use crate::coverage::add_each;
use crate::program::{Printed, Programs};
use crate::{first_line_that_differs, Difference};
use cases::hexadecimal;
use second::{load, saved, Kind, Model, Part};

/// How many tables were saved, by what is telling of them, and how many could not be.
#[derive(Default)]
pub struct Saves([u64; NAMES.len()]);

const NAMES: [&str; 8] = [
    "not saved",
    "saved",
    "saved otherwise than in the stream",
    "saved with spans",
    "saved with wires to both ports of a part",
    "saved with a default magnitude that is not the master's",
    "saved in 1,891 bytes",
    "saved in 1,891 bytes and otherwise than in the stream",
];

/// The bytes of the longest table: Begin, 32 drives with eight spans and a wire each, and End.
const LONGEST: usize = 2 + 32 * (15 + 8 * 5 + 4) + 1;

/// How many steps are rehearsed from a saved table, and the bytes of one in a score.
const STEPS: usize = 10;
const WANTED: usize = 5;

impl Saves {
    /// What differs where the table of a stream is saved and loaded again, or none. `lines` are what is printed for it.
    pub fn difference(&mut self, programs: &Programs, ticket: u64, stream: &[u8], lines: &[u8]) -> Option<Difference> {
        let loaded = load(stream);
        let due = match &loaded {
            Ok(accepted) => Printed { out: saved(&accepted.model), errors: Vec::new() },
            Err(refusal) => Printed { out: Vec::new(), errors: format!("{refusal}\n").into_bytes() },
        };
        match programs.savetable.run(ticket, stream) {
            Ok(got) if got == due => {}
            Ok(got) => return Difference::of(first_byte_that_differs(&due, &got)),
            Err(text) => return Difference::of(format!("saving it: {text}")),
        }
        let Ok(accepted) = loaded else {
            self.0[0] += 1;
            return None;
        };
        let table = due.out;
        let (own, score) = stream.split_at(accepted.end);
        self.count(&accepted.model, table.len() == LONGEST, table != own);
        match load(&table) {
            Ok(again) if again.model == accepted.model && again.end == table.len() => {}
            _ => return Difference::of(format!("the library loads another model from {}", hexadecimal(&table))),
        }
        if table == own {
            return None;
        }
        rehearsed_again(programs, ticket, &table, score, lines)
    }

    /// Counts a table that was saved, in the most bytes or not, and in other ones than the stream's or not.
    fn count(&mut self, model: &Model, longest: bool, otherwise: bool) {
        let has = |telling: fn(&Part) -> bool| model.parts.iter().any(telling);
        let spans = has(|part| matches!(&part.kind, Kind::Drive { spans, .. } if !spans.is_empty()));
        let both = has(|part| part.inputs[0].is_some() && part.inputs[1].is_some());
        let lower = model.default_magnitude < model.magnitude();
        let those = [true, otherwise, spans, both, lower, longest, longest && otherwise];
        for (count, is_one) in self.0[1..].iter_mut().zip(those) {
            *count += u64::from(is_one);
        }
    }

    /// Adds what another thread counted.
    pub fn add(&mut self, other: &Saves) {
        add_each(&mut self.0, &other.0);
    }

    /// Each with its name.
    pub fn named(&self) -> impl Iterator<Item = (&'static str, u64)> + '_ {
        NAMES.into_iter().zip(self.0)
    }
}

/// What differs where the other program rehearses a saved table with the first steps of its stream's score. The table's
/// commands are the stream's in another order, so that positions stay as they are.
fn rehearsed_again(programs: &Programs, ticket: u64, table: &[u8], score: &[u8], lines: &[u8]) -> Option<Difference> {
    let again = [table, &score[..score.len().min(WANTED * STEPS)]].concat();
    let lines = lines.split_inclusive(|&byte| byte == b'\n').take(STEPS).collect::<Vec<_>>().concat();
    match programs.rehearse.run(ticket, &again) {
        Ok(got) if got.out == lines && got.errors.is_empty() => None,
        Ok(got) => {
            Difference::of(format!("rehearsed from its saved table {}", first_line_that_differs(&lines, &got.out)))
        }
        Err(text) => Difference::of(format!("rehearsing its saved table: {text}")),
    }
}

/// Where what the program that saves printed is not what is due.
fn first_byte_that_differs(due: &Printed, got: &Printed) -> String {
    if got.errors != due.errors {
        return format!("saving it, {}", first_line_that_differs(&due.errors, &got.errors));
    }
    let at = due.out.iter().zip(&got.out).take_while(|(one, other)| one == other).count();
    let byte = |bytes: &[u8]| bytes.get(at).map_or("nothing".to_string(), |byte| format!("{byte:02x}"));
    format!("byte {at} of its saved table is {} instead of {}", byte(&got.out), byte(&due.out))
}
