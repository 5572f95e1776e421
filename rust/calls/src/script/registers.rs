//! The lines of a script: their words, the registers that they name, and the answers as they are printed.

use crate::script::alterations::{alter, alter_count, number};
use crate::script::implementations::{Answer, Calls, Preview, Written};
use crate::words::{Words, COUNT, N, OUTPUT, PARTS, T};
use cases::hexadecimal;
use std::collections::BTreeMap;
use std::fmt::Write;
use std::marker::PhantomData;

/// The most bytes that a line can lend, and each of them before the call.
const MOST_ROOM: usize = 1 << 20;
const LENT: u8 = 0xAA;

/// The models by the names of their registers, and their last answers; a register that was never set holds no model.
pub struct Registers<C> {
    models: BTreeMap<String, Words>,
    /// Of those that were advanced, or whose answer was altered.
    pub answers: BTreeMap<String, Answer>,
    calls: PhantomData<C>,
}

impl<C> Default for Registers<C> {
    fn default() -> Self {
        Registers { models: BTreeMap::new(), answers: BTreeMap::new(), calls: PhantomData }
    }
}

impl<C: Calls> Registers<C> {
    /// The answer to a line; none to a comment and to a blank line.
    pub fn answer(&mut self, line: &[u8]) -> Option<String> {
        if line.starts_with(b"#") || line.iter().all(u8::is_ascii_whitespace) {
            return None;
        }
        let known = std::str::from_utf8(line).ok().and_then(|line| {
            let words: Vec<&str> = line.split(' ').collect();
            self.call(&words)
        });
        Some(known.unwrap_or_else(|| "unknown".to_string()))
    }

    /// Makes the call that these words say; none where they say none that is known, and then nothing is changed.
    fn call(&mut self, words: &[&str]) -> Option<String> {
        match *words {
            ["load", name, stream] => {
                let (name, stream) = (register(name)?, bytes(stream)?);
                let loaded = C::load(&stream);
                self.models.insert(name, loaded.model);
                Some(format!("load {} {}", loaded.number, loaded.position))
            }
            ["advance", name, wanted] => {
                let (name, wanted) = (register(name)?, number(wanted)?);
                let answer = C::advance(&self.model(&name), wanted);
                let said = format!("advance {}", said(&answer));
                self.models.insert(name.clone(), answer.model.clone());
                self.answers.insert(name, answer);
                Some(said)
            }
            ["preview", name, wanted] => {
                let (name, wanted) = (register(name)?, number(wanted)?);
                let Preview { answer, model } = C::preview(&self.model(&name), wanted);
                self.models.insert(name, model);
                Some(format!("preview {}", said(&answer)))
            }
            ["save", name, room] => {
                let (name, mut buffer) = (register(name)?, lent(room)?);
                let written = C::save(&self.model(&name), &mut buffer);
                Some(format!("save {}", left(written, &buffer)))
            }
            ["sheet", name, first, second, third, room] => {
                let choice = [number(first)?, number(second)?, number(third)?];
                let (name, mut buffer) = (register(name)?, lent(room)?);
                let written = C::sheet(&self.last_answer(&name), choice, &mut buffer);
                Some(format!("sheet {}", left(written, &buffer)))
            }
            _ => self.alter(words),
        }
    }

    /// Alters what these words say, a register's last answer or its model; none where they say none that is known.
    fn alter(&mut self, words: &[&str]) -> Option<String> {
        match *words {
            ["answer", name, count, value] => {
                let name = register(name)?;
                let mut answer = self.last_answer(&name);
                alter_count(&mut answer.counts, count, value)?;
                self.answers.insert(name, answer);
                Some("altered".to_string())
            }
            ["alter", name, ref field @ .., value] => {
                let name = register(name)?;
                let mut model = self.model(&name);
                alter(&mut model, field, value)?;
                self.models.insert(name, model);
                Some("altered".to_string())
            }
            _ => None,
        }
    }

    /// What a register holds.
    pub fn model(&self, name: &str) -> Words {
        self.models.get(name).cloned().unwrap_or_else(Words::none)
    }

    /// The last answer of a register's model; before there is one its counts are 0, and the model is the one held now.
    pub fn last_answer(&self, name: &str) -> Answer {
        let none = || Answer { counts: [0; 5], model: self.model(name) };
        self.answers.get(name).cloned().unwrap_or_else(none)
    }
}

/// A register's name: small letters and digits.
fn register(word: &str) -> Option<String> {
    let is_name = !word.is_empty() && word.bytes().all(|c| c.is_ascii_lowercase() || c.is_ascii_digit());
    is_name.then(|| word.to_string())
}

/// The bytes that a word spells: pairs of hexadecimal digits, or `.` for none.
fn bytes(word: &str) -> Option<Vec<u8>> {
    if word == "." {
        return Some(Vec::new());
    }
    let digit = |c: u8| char::from(c).to_digit(16).map(|digit| digit as u8);
    let (pairs, odd) = word.as_bytes().as_chunks();
    if pairs.is_empty() || !odd.is_empty() {
        return None;
    }
    pairs.iter().map(|&[high, low]| Some(16 * digit(high)? + digit(low)?)).collect()
}

/// Bytes as a script spells them.
pub fn spelled(bytes: &[u8]) -> String {
    if bytes.is_empty() {
        return ".".to_string();
    }
    hexadecimal(bytes)
}

/// The buffer of so many bytes that a line lends; none where they are more than a line can.
fn lent(room: &str) -> Option<Vec<u8>> {
    number(room).filter(|&room| room <= MOST_ROOM).map(|room| vec![LENT; room])
}

/// What a writing call leaves, as a script prints it: its answer and the whole buffer.
fn left(Written { number, length }: Written, buffer: &[u8]) -> String {
    format!("{number} {length} {}", spelled(buffer))
}

/// An answer as a script prints it: outputs by part number, none of them where there are more parts than room for them.
fn said(answer: &Answer) -> String {
    let Answer { counts: [number, step, rounds, revisions, ceiling], model } = answer;
    let (t, n) = (model.0[T], model.0[N]);
    let mut said = format!("{number} {step} {rounds} {revisions} {ceiling} at {t} {n} outputs");
    let count = if model.0[COUNT] <= PARTS as u64 { model.count() } else { 0 };
    for number in 0..count {
        let output = &model.part(number)[OUTPUT..][..2];
        // A string takes every write.
        let _ = match output[0] {
            0 => write!(said, " -"),
            _ => write!(said, " {}", output[1] as i64),
        };
    }
    said
}
