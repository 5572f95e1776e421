//! A call that writes into a lent buffer, by both, compared: the number, the length and every byte of the buffer.

use crate::alter::any;
use crate::compared::NOT_SOUND;
use crate::lent::{cut, fits, spare};
use crate::words::*;
use cases::random::Random;
use second::{Model, Written};

/// A writing call, with what it is handed beside the model and the buffer.
pub trait Writing {
    /// The second implementation's.
    fn second(&self, model: &Model, buffer: &mut [u8]) -> Written;
    /// The exported one, on the words of a table and of a state.
    fn exported(&self, table: &[u64], state: &[u64], buffer: &mut [u8], out: &mut [u64]) -> u64;
}

/// The words of a table and of a state, and the model that they mean, or none where the second implementation's types
/// cannot say it.
pub struct Given<'a> {
    pub table: &'a [u64],
    pub state: &'a [u64],
    pub meant: Option<&'a Model>,
}

impl Given<'_> {
    /// Makes a call with both into so many bytes, and fails unless number, length and the whole buffer agree. The
    /// number.
    pub fn written_in(&self, call: &impl Writing, room: usize, random: &mut Random) -> Result<u64, String> {
        self.answered_in(call, [room, 2 + spare(random)], random)
    }

    /// The same with so many words for the answer, of which those that fit have to be written.
    fn answered_in(&self, call: &impl Writing, [room, words]: [usize; 2], random: &mut Random) -> Result<u64, String> {
        let fill = any(random);
        let [mut due, mut buffer] = [(); 2].map(|_| vec![fill as u8; room]);
        let said = match self.meant {
            Some(model) => {
                let written = call.second(model, &mut due);
                [written.number.into(), written.length as u64]
            }
            None => [NOT_SOUND, 0],
        };
        let mut out = vec![fill; words];
        let code = call.exported(self.table, self.state, &mut buffer, &mut out);
        if code != said[0] || !fits(&out, &said, fill) {
            return Err(format!("a call into {room} bytes answers {code} and {out:?} instead of {said:?}"));
        }
        match (0..room).find(|&at| buffer[at] != due[at]) {
            None => Ok(code),
            Some(at) => Err(format!("byte {at} of {room} is {:02x} instead of {:02x}", buffer[at], due[at])),
        }
    }

    /// What a call through the binding answers, which has to leave its model.
    pub fn bound<T>(&self, call: impl FnOnce(&dozhumek::Model) -> T) -> Result<T, String> {
        let model = dozhumek::Model::from_words(self.table.to_vec(), self.state.to_vec());
        let answer = call(&model);
        if model.table() != self.table || model.state() != self.state {
            return Err("a call through the binding changes its model".to_string());
        }
        Ok(answer)
    }

    /// Makes a call of too few of the model's words, into so many bytes.
    pub fn cut(&self, call: &impl Writing, room: usize, random: &mut Random) -> Result<(), String> {
        let parts = self.table[COUNT].min(PARTS as u64) as usize;
        let (table, state) = cut(self.table, self.state, parts, random);
        Given { table, state, meant: None }.written_in(call, room, random).map(|_| ())
    }

    /// Makes a call into so many bytes with every room for its answer, from none to a word more than it has. The
    /// number.
    pub fn with_any_room(&self, call: &impl Writing, room: usize, random: &mut Random) -> Result<u64, String> {
        for words in 0..=2 {
            self.answered_in(call, [room, words], random)?;
        }
        self.answered_in(call, [room, 3], random)
    }
}
