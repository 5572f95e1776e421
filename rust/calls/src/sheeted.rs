//! One answer printed as a line of a sheet by both, compared: with parts that there are and that there are not, into no
//! room, room that is short by a byte, exact room and longer room, as it was given and with numbers altered, through
//! the binding, with too few words, and with every room for its answer.

use crate::alter::any;
use crate::compared::{Expected, NOT_SOUND};
use crate::coverage::Coverage;
use crate::lent::spare;
use crate::words::*;
use crate::written::{Given, Writing};
use cases::random::Random;
use second::{Model, Shown, Written};
use std::cmp::Ordering;

/// The bytes of a line.
const LINE: usize = dozhumek::SHEET_LINE;

/// The number of a sheet that cannot be printed: a part that there is not, or a number wider than its field.
const NOT_PRINTED: u64 = 26;

/// The largest step, rounds and revisions that their fields hold.
const WIDEST: [u64; 3] = [9_999_999_999, 9_999, 99];

/// Prints an answer, whose model has these words, into every sort of room; and some also with numbers altered, through
/// the binding, with too few words, and with every room for its answer.
pub fn sheet(
    table: &[u64],
    state: &[u64],
    want: &Expected,
    random: &mut Random,
    coverage: &mut Coverage,
) -> Result<(), String> {
    let given = Given { table, state, meant: want.meant.as_ref() };
    for (name, room) in rooms(random) {
        given.print(want, room, random, coverage)?;
        coverage.count(name);
    }
    if random.once_in(2) {
        given.print_altered(want, random, coverage)?;
    }
    if random.once_in(8) {
        given.print_bound(want, random)?;
        coverage.count("sheet through the binding");
    }
    given.print_short(want, random, coverage)
}

/// Prints an answer, whose model has these words, into a room of some sort.
pub fn sheet_once(
    table: &[u64],
    state: &[u64],
    want: &Expected,
    random: &mut Random,
    coverage: &mut Coverage,
) -> Result<(), String> {
    Given { table, state, meant: want.meant.as_ref() }.print(want, some_room(random), random, coverage)?;
    coverage.count("sheet of a preview");
    Ok(())
}

/// Every sort of room, by name.
fn rooms(random: &mut Random) -> [(&'static str, usize); 4] {
    [
        ("sheet into no room", 0),
        ("sheet into room short by a byte", LINE - 1),
        ("sheet into exact room", LINE),
        ("sheet into longer room", LINE + 1 + spare(random)),
    ]
}

/// Room of some sort.
fn some_room(random: &mut Random) -> usize {
    let rooms = rooms(random);
    random.pick(&rooms).1
}

/// A sheet of an answer of these words and of these parts.
struct Sheet<'a> {
    outcome: &'a [u64],
    choice: [u64; 3],
}

impl Writing for Sheet<'_> {
    fn second(&self, model: &Model, buffer: &mut [u8]) -> Written {
        let [number, step, rounds, revisions] = [0, 1, 2, 3].map(|at| self.outcome[at]);
        second::sheet(model, Shown { number, step, rounds, revisions }, self.choice, buffer)
    }

    fn exported(&self, table: &[u64], state: &[u64], buffer: &mut [u8], out: &mut [u64]) -> u64 {
        dozhumek::sheet_into(table, state, self.outcome, self.choice, buffer, out)
    }
}

impl Given<'_> {
    /// Makes a sheet with both into so many bytes. The number.
    fn printed_in(
        &self,
        sheet: &Sheet,
        room: usize,
        random: &mut Random,
        coverage: &mut Coverage,
    ) -> Result<u64, String> {
        let told = |what| format!("{what}, of the answer {:?} and the parts {:?}", sheet.outcome, sheet.choice);
        let code = self.written_in(sheet, room, random).map_err(told)?;
        coverage.sheet(code);
        Ok(code)
    }

    /// Prints an answer, as it was given, into so many bytes.
    fn print(&self, want: &Expected, room: usize, random: &mut Random, coverage: &mut Coverage) -> Result<(), String> {
        let (choice, missing) = choice(&want.model, random);
        let outcome: Vec<u64> = want.counts.into_iter().chain((0..spare(random)).map(|_| any(random))).collect();
        let code = self.printed_in(&Sheet { outcome: &outcome, choice }, room, random, coverage)?;
        let number = want.counts[0];
        if number != NOT_SOUND && (code == NOT_PRINTED) != missing {
            return Err(format!("a sheet of parts {choice:?} answers {code}, of an answer that the machine gave"));
        }
        coverage.count(match (number, missing) {
            (NOT_SOUND, _) => "sheet of a model that is not sound",
            (0, false) => "sheet of a committed answer",
            (0, true) => "sheet of a committed answer and a part that there is not",
            (_, false) => "sheet of a refused answer",
            (_, true) => "sheet of a refused answer and a part that there is not",
        });
        Ok(())
    }

    /// Prints an answer with some numbers altered, into a line's room or room of some sort.
    fn print_altered(&self, want: &Expected, random: &mut Random, coverage: &mut Coverage) -> Result<(), String> {
        let (choice, missing) = choice(&want.model, random);
        let counts = altered(want.counts, random);
        let room = if random.once_in(2) { LINE } else { some_room(random) };
        self.printed_in(&Sheet { outcome: &counts, choice }, room, random, coverage)?;
        if missing || want.counts[0] == NOT_SOUND {
            return Ok(());
        }
        // How the number that is widest for its field compares with that.
        let widest = counts[1..4].iter().zip(WIDEST).map(|(count, most)| count.cmp(&most)).max();
        coverage.count(match (counts[0], widest) {
            (0, Some(Ordering::Greater)) => "sheet of a committed answer with a number too wide",
            (0, Some(Ordering::Equal)) => "sheet of a committed answer with a field full",
            (0, _) => "sheet of an altered answer, committed",
            (_, Some(Ordering::Greater)) => "sheet of a refused answer with a number too wide",
            _ => "sheet of an altered answer, refused",
        });
        Ok(())
    }

    /// The same sheet through the binding.
    fn print_bound(&self, want: &Expected, random: &mut Random) -> Result<(), String> {
        let (choice, _) = choice(&want.model, random);
        let counts = if random.once_in(2) { altered(want.counts, random) } else { want.counts };
        let mut line = [0; LINE];
        let due = match self.meant.map(|model| Sheet { outcome: &counts, choice }.second(model, &mut line).number) {
            None => Err(NOT_SOUND),
            Some(0) => Ok(line),
            Some(number) => Err(number.into()),
        };
        let [number, step, rounds, revisions, ceiling] = counts;
        let answer = dozhumek::Answer { number, step, rounds, revisions, ceiling };
        if self.bound(|model| model.sheet(&answer, choice).map_err(dozhumek::Refusal::number))? != due {
            return Err("the binding's sheet answers something else".to_string());
        }
        Ok(())
    }

    /// The same sheet of too few words of the model or of the answer, and with every room for its own answer.
    fn print_short(&self, want: &Expected, random: &mut Random, coverage: &mut Coverage) -> Result<(), String> {
        let (choice, _) = choice(&want.model, random);
        let outcome = &want.counts;
        if random.once_in(16) {
            self.cut(&Sheet { outcome, choice }, some_room(random), random)?;
            coverage.count("sheet of too few words");
        }
        if random.once_in(16) {
            let room = some_room(random);
            coverage.count(match self.with_any_room(&Sheet { outcome, choice }, room, random)? {
                0 => "sheet with any room for its answer",
                _ => "refused sheet with any room for its answer",
            });
        }
        if random.once_in(16) {
            // They spell no answer, whatever model, parts and room are.
            let outcome = &outcome[..random.below(5)];
            Given { meant: None, ..*self }.with_any_room(&Sheet { outcome, choice }, some_room(random), random)?;
            coverage.count("sheet of too few words of an answer");
        }
        Ok(())
    }
}

/// Three parts, and whether one of them is not there: now and then such a one, which often is there modulo some width.
fn choice(words: &Words, random: &mut Random) -> ([u64; 3], bool) {
    let count = words.0[COUNT].min(PARTS as u64);
    let mut choice = [(); 3].map(|_| random.below(count.max(1) as usize) as u64);
    if random.once_in(6) {
        let place = &mut choice[random.below(3)];
        let wider = *place + (1 << random.pick(&[8, 16, 32, 63]));
        *place = random.pick(&[count, count + 1, PARTS as u64, 600, wider, wider, u64::MAX]);
    }
    (choice, choice.iter().any(|&part| part >= count))
}

/// An answer with some of its numbers altered: another number, which often is 0 modulo some width, and counts at the
/// widths of their fields, above them, or any.
fn altered(mut counts: [u64; 5], random: &mut Random) -> [u64; 5] {
    if random.once_in(2) {
        counts[0] = random.pick(&[0, 0, 1, 24, 25, 26, 256, 1 << 32, 1 << 63, u64::MAX]);
    }
    for (count, most) in counts[1..].iter_mut().zip(WIDEST.into_iter().chain([u64::MAX - 1])) {
        if random.once_in(3) {
            let near = [most - 1, most, most, most + 1, *count + (1 << 32), u64::MAX];
            *count = if random.once_in(4) { any(random) >> random.below(64) } else { random.pick(&near) };
        }
    }
    counts
}
