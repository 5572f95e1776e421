//! Makes a call script in which something happens, and prints it.
//!
//!     script_maker [--cases N] [--seed S]
//!
//! Each case loads a generated stream into one of a few registers, plays some steps, and then alters the
//! model in the ways of `calls`, plays on, and mostly takes the alteration back. Before some advances the model is
//! previewed, by the same wanted step or by others, or its table is saved, into room that is exact, short by a byte,
//! longer or none; so is at times what a register holds before its load. Last answers are printed between the advances
//! and before the first, as they are and with counts altered to the widths of their fields and above, with parts that
//! there are and that there are not. The second implementation tells what the registers hold meanwhile. The bytes of
//! unused places are free, so none comes into use that was not written by a line before. The status is 1, and what is
//! missing is said, where a number, a field, a sort, a count's value or a room was not reached.

mod fields;

use calls::alter::{Then, SORTS, SOUND};
use calls::script::implementations::{Answer, Second};
use calls::script::registers::{spelled, Registers};
use calls::wanted::wanted;
use calls::words::{Words, COUNT, PARTS, T};
use cases::random::Random;
use cases::{generate, options};
use std::collections::BTreeSet;
use std::process::ExitCode;

const NAMES: [&str; 4] = ["m0", "m1", "drum", "7"];

/// The numbers of a load, and those of an advance, which a preview has too.
const LOADS: [u64; 12] = [0, 1, 2, 3, 5, 6, 7, 8, 9, 10, 11, 12];
const ADVANCES: [u64; 6] = [0, 20, 21, 22, 23, 24];

/// What a save's room is, and the number of a save of a sound model into it.
const ROOMS: [(&str, u64); 4] = [("exact", 0), ("a byte short", 25), ("longer", 0), ("none", 25)];

/// What a save is of.
const SAVED: [&str; 3] = ["no model", "a model at tick 0", "a model at a later tick"];

/// The rooms of a sheet.
const SHEET_ROOMS: [u64; 6] = [0, 1, 78, 79, 80, 100];

/// What an answer's counts are altered to.
const COUNTS: [(&str, &[u64]); 5] = [
    ("number", &[0, 1, 20, 24, 26, 256, 1 << 32, u64::MAX]),
    ("step", &[9_999_999_999, 10_000_000_000, u64::MAX]),
    ("rounds", &[9_999, 10_000, (1 << 32) + 1, u64::MAX]),
    ("revisions", &[99, 100, (1 << 32) + 1, u64::MAX]),
    ("ceiling", &[0, u64::MAX]),
];

/// What a sheet is of: an answer, and whose model.
const SHEETED: [&str; 4] = ["no answer yet", "a committed answer", "a refused answer", "a model no longer held"];

/// A script, what its registers hold at its end, and what it reached.
#[derive(Default)]
struct Made {
    script: String,
    registers: Registers<Second>,
    reached: BTreeSet<String>,
    new_names: usize,
}

impl Made {
    /// Puts a line after the others. The number that it is answered, of a call.
    fn line(&mut self, line: &str) -> Option<u64> {
        self.script.push_str(line);
        self.script.push('\n');
        let answer = self.registers.answer(line.as_bytes())?;
        let mut words = answer.split(' ');
        let (call, number) = (words.next()?, words.next()?);
        self.reached.insert(format!("{call} {number}"));
        number.parse().ok()
    }

    /// What a register holds.
    fn words(&self, name: &str) -> Words {
        self.registers.model(name)
    }

    /// Previews a model some times or never: by the step that its next advance wants, or by another.
    fn preview(&mut self, name: &str, next: u64, random: &mut Random) {
        while random.once_in(3) {
            let w = if random.once_in(2) { next } else { wanted(&self.words(name), random) };
            self.line(&format!("preview {name} {w}"));
        }
    }

    /// Saves a model's table into some room. One that is not sound has no length, and is given one.
    fn save(&mut self, name: &str, random: &mut Random) {
        let words = self.words(name);
        let sound = words.model().filter(|model| model.sound());
        let length = sound.map_or_else(|| random.pick(&[1, 18, 400]), |model| second::saved(&model).len());
        let (kind, _) = random.pick(&ROOMS);
        let room = match kind {
            "exact" => length,
            "a byte short" => length - 1,
            "longer" => length + 1 + random.pick(&[0, 0, 1, 7, 60]),
            _ => 0,
        };
        let number = self.line(&format!("save {name} {room}")).unwrap_or(0);
        self.reached.insert(format!("room {kind}, {number}"));
        let what = if words.count() == 0 { 0 } else { 1 + usize::from(words.0[T] > 0) };
        self.reached.insert(format!("save {number} of {}", SAVED[what]));
    }

    /// Prints a model's last answer some times or never, and alters its counts before some of them.
    fn sheet(&mut self, name: &str, random: &mut Random) {
        while random.once_in(3) {
            if random.once_in(3) {
                let (count, values) = random.pick(&COUNTS);
                let value = random.pick(values);
                self.line(&format!("answer {name} {count} {value}"));
                self.reached.insert(format!("answer {count} {value}"));
            }
            let Answer { counts, model } = self.registers.last_answer(name);
            let parts = model.0[COUNT].min(PARTS as u64);
            let mut choice = [(); 3].map(|_| random.below(parts.max(1) as usize) as u64);
            if random.once_in(5) {
                let missing = [parts, 32, 599, 600, 65_535, 65_536, 1 << 32, u64::MAX];
                choice[random.below(3)] = random.pick(&missing);
            }
            let ([first, second, third], room) = (choice, random.pick(&SHEET_ROOMS));
            let number = self.line(&format!("sheet {name} {first} {second} {third} {room}")).unwrap_or(0);
            self.reached.insert(format!("sheet {number} into {room}"));
            let answered = self.registers.answers.contains_key(name);
            let of = if answered { 1 + usize::from(counts[0] != 0) } else { 0 };
            self.reached.insert(format!("sheet {number} of {}", SHEETED[of]));
            if model != self.words(name) {
                self.reached.insert(format!("sheet {number} of {}", SHEETED[3]));
            }
        }
    }

    /// Advances a model by some step, up to `most` times, with previews, saves and sheets before, and sheets after.
    /// The last number of an advance.
    fn play(&mut self, name: &str, most: usize, random: &mut Random) -> Option<u64> {
        let mut number = None;
        for _ in 0..1 + random.below(most) {
            let w = wanted(&self.words(name), random);
            self.preview(name, w, random);
            if random.once_in(6) {
                self.save(name, random);
            }
            self.sheet(name, random);
            number = self.line(&format!("advance {name} {w}"));
        }
        self.sheet(name, random);
        number
    }

    /// Alters a model into this one, field by field; `parts` is how many parts it has.
    fn alter_into(&mut self, name: &str, to: &Words, parts: usize) {
        let from: BTreeSet<_> = fields::of(&self.words(name), parts).into_iter().collect();
        for (field, value) in fields::of(to, parts).into_iter().filter(|named| !from.contains(named)) {
            self.line(&format!("alter {name} {field} {value}"));
            self.reached.insert(format!("field {}", fields::sort_of(&field)));
        }
    }

    /// Alters a sound model, plays on and, unless it is sound still and the case goes on with it, takes that back.
    fn play_altered(&mut self, name: &str, random: &mut Random) {
        let before = self.words(name);
        let (sort, _, alteration) = random.pick(SORTS);
        let mut altered = before.clone();
        // Some faults are far from the start.
        let first = random.pick(&SORTS[..SOUND]);
        if first.1 != Then::Sound || !random.once_in(3) || !first.2(&mut altered, random) {
            altered = before.clone();
        }
        if !alteration(&mut altered, random) {
            return;
        }
        self.alter_into(name, &fields::sayable(&altered), before.count());
        let number = self.play(name, 3, random);
        self.reached.insert(format!("sort {sort}"));
        if number == Some(24) || random.once_in(2) {
            self.alter_into(name, &before, before.count());
        }
    }

    /// The register of a case: one of a few, or one that no line named before.
    fn register(&mut self, random: &mut Random) -> String {
        if !random.once_in(8) {
            return random.pick(&NAMES).to_string();
        }
        self.new_names += 1;
        format!("new{}", self.new_names)
    }

    /// Adds the lines of a case.
    fn case(&mut self, random: &mut Random) {
        let name = &self.register(random);
        let mut stream = generate::case(random);
        if let Ok(accepted) = second::load(&stream) {
            // The score is played by the lines, and its bytes are seldom needed.
            stream.truncate(accepted.end + random.pick(&[0, 0, 0, 1, 10]));
        }
        if random.once_in(20) {
            self.save(name, random);
            self.sheet(name, random);
        }
        let number = self.line(&format!("load {name} {}", spelled(&stream)));
        if number != Some(0) && !random.once_in(4) {
            return;
        }
        if self.play(name, 8, random) == Some(24) {
            return;
        }
        for _ in 0..random.below(6) {
            self.play_altered(name, random);
        }
    }

    /// What was not reached and should have been.
    fn missing(&self) -> Vec<String> {
        let loads = LOADS.iter().map(|number| format!("load {number}"));
        let of_both = |number| ["advance", "preview"].map(|call| format!("{call} {number}"));
        let advances = ADVANCES.iter().flat_map(of_both);
        let rooms =
            ROOMS.iter().flat_map(|(kind, number)| [*number, 24].map(|number| format!("room {kind}, {number}")));
        let of_none = [format!("save 24 of {}", SAVED[0])];
        let of_some = SAVED[1..].iter().flat_map(|what| [0, 24, 25].map(|number| format!("save {number} of {what}")));
        let saves = rooms.chain(of_none).chain(of_some);
        let counts =
            COUNTS.iter().flat_map(|(count, values)| values.iter().map(move |value| format!("answer {count} {value}")));
        let sheet_numbers = |room| [if room < 79 { 25 } else { 0 }, 24, 26];
        let into = SHEET_ROOMS
            .iter()
            .flat_map(|&room| sheet_numbers(room).map(|number| format!("sheet {number} into {room}")));
        let of = SHEETED.iter().flat_map(|what| [0, 24, 25, 26].map(|number| format!("sheet {number} of {what}")));
        let sheets = counts.chain(into).chain(of);
        let named = fields::NAMES.iter().map(|field| format!("field {field}"));
        let sorts = SORTS.iter().filter(|sort| sort.0 != "as it was").map(|sort| format!("sort {}", sort.0));
        loads
            .chain(advances)
            .chain(saves)
            .chain(sheets)
            .chain(named)
            .chain(sorts)
            .filter(|what| !self.reached.contains(what))
            .collect()
    }
}

fn main() -> ExitCode {
    let Some([cases, seed]) = options::numbers(std::env::args().skip(1), ["--cases", "--seed"]) else {
        eprintln!("usage: script_maker [--cases N] [--seed S]");
        return ExitCode::from(2);
    };
    let (cases, seed) = (cases.unwrap_or(1000), seed.unwrap_or(1));
    let mut made = Made::default();
    for number in 0..cases {
        made.script.push_str(&format!("# case {number} of seed {seed}\n"));
        made.case(&mut Random::of_case(seed, number));
    }
    print!("{}", made.script);
    let missing = made.missing();
    if !missing.is_empty() {
        eprintln!("script_maker: {cases} cases of seed {seed} reached too little: {}", missing.join("; "));
        return ExitCode::FAILURE;
    }
    ExitCode::SUCCESS
}
