//! One model's table saved by both, compared: into exact room, room that is short by a byte, longer room and none,
//! through the binding, with too few words, and with every room for its answer. What was saved is loaded again by both,
//! and saved again.

use crate::compared::{load_both, NOT_SOUND};
use crate::coverage::Coverage;
use crate::lent::spare;
use crate::words::*;
use crate::written::{Given, Writing};
use cases::random::Random;
use second::{Model, Written};

/// More bytes than any table has.
const MUCH: usize = 4096;

/// Saves a model that was just loaded into these words. What is saved has to be loaded as the same model.
pub fn save_fresh(
    table: &[u64],
    state: &[u64],
    model: &Model,
    random: &mut Random,
    coverage: &mut Coverage,
) -> Result<(), String> {
    let bytes = Given { table, state, meant: Some(model) }.save(random, coverage)?;
    if loaded_again(&bytes, random, coverage)? != *model {
        return Err("a saved table is loaded as another model".to_string());
    }
    coverage.count("a fresh model's table loaded again");
    Ok(())
}

/// Saves the model that `given` means, of whose words these are lent. What is saved of some is loaded, as a model of
/// the same table.
pub fn save(
    table: &[u64],
    state: &[u64],
    given: &Words,
    random: &mut Random,
    coverage: &mut Coverage,
) -> Result<(), String> {
    let meant = given.model();
    let bytes = Given { table, state, meant: meant.as_ref() }.save(random, coverage)?;
    match &meant {
        Some(model) if !bytes.is_empty() && random.once_in(16) => {
            if table_of(&loaded_again(&bytes, random, coverage)?) != table_of(model) {
                return Err("a saved table is loaded as another".to_string());
            }
            coverage.count("any model's table loaded again");
        }
        _ => {}
    }
    Ok(())
}

/// A save.
struct Save;

impl Writing for Save {
    fn second(&self, model: &Model, buffer: &mut [u8]) -> Written {
        second::save(model, buffer)
    }

    fn exported(&self, table: &[u64], state: &[u64], buffer: &mut [u8], out: &mut [u64]) -> u64 {
        dozhumek::save_into(table, state, buffer, out)
    }
}

impl Given<'_> {
    /// Saves the table with both, into every sort of room, through the binding, with too few words, and with every room
    /// for the answer. Its bytes, none where the model is not sound.
    fn save(&self, random: &mut Random, coverage: &mut Coverage) -> Result<Vec<u8>, String> {
        let bytes = self.meant.map_or(vec![], second::saved);
        let needed = bytes.len();
        for (name, room) in rooms(needed, random) {
            coverage.save(self.written_in(&Save, room, random)?);
            coverage.count(name);
        }
        if random.once_in(8) {
            let due = if bytes.is_empty() { Err(NOT_SOUND) } else { Ok(bytes.clone()) };
            if self.bound(|model| model.save().map_err(dozhumek::Refusal::number))? != due {
                return Err("the binding's save answers something else".to_string());
            }
            coverage.count("save through the binding");
        }
        if random.once_in(16) {
            self.cut(&Save, random.pick(&[0, needed, MUCH]), random)?;
            coverage.count("save of too few words");
        }
        if random.once_in(16) {
            let room = random.pick(&[0, needed, MUCH]);
            coverage.count(match self.with_any_room(&Save, room, random)? {
                0 => "save with any room for its answer",
                _ => "refused save with any room for its answer",
            });
        }
        Ok(bytes)
    }
}

/// Every sort of room for so many bytes, by name; where there are none the model is not sound.
fn rooms(needed: usize, random: &mut Random) -> [(&'static str, usize); 4] {
    let longer = 1 + spare(random);
    if needed == 0 {
        return [
            ("barred save into no room", 0),
            ("barred save into a byte", 1),
            ("barred save into some room", longer),
            ("barred save into room for any table", MUCH),
        ];
    }
    [
        ("save into no room", 0),
        ("save into room short by a byte", needed - 1),
        ("save into exact room", needed),
        ("save into longer room", needed + longer),
    ]
}

/// Loads what was saved with both, and saves that again. The fresh model.
fn loaded_again(bytes: &[u8], random: &mut Random, coverage: &mut Coverage) -> Result<Model, String> {
    let (got, loaded) = load_both(bytes, random).map_err(|what| format!("loaded again: {what}"))?;
    let Some(fresh) = loaded else {
        return Err("a saved table is refused".to_string());
    };
    let given = Given { table: &got.table, state: &got.state, meant: Some(&fresh) };
    if given.save(random, coverage)? != bytes {
        return Err("a saved table is saved otherwise when it is loaded again".to_string());
    }
    Ok(fresh)
}

/// The words of a model's table.
fn table_of(model: &Model) -> Vec<u64> {
    let mut words = Words::none();
    words.put(model);
    words.table()
}
