//! Sheets: what the other program prints for a stream and three parts, drawn by the stream's bytes.

use crate::coverage::add_each;
use crate::program::{Printed, Programs};
use crate::{first_line_that_differs, Difference};
use cases::random::Random;
use second::model::MOST_PARTS;
use second::{load, printsheet};

/// How often each was seen.
#[derive(Default)]
pub struct Sheets {
    /// Sheets without a line.
    empty: [u64; 6],
    /// Lines of committed answers and of refused ones, and ends at a command that is refused itself.
    lines: [u64; 3],
    /// Lines of committed answers by what is telling of them.
    telling: [u64; 9],
}

const EMPTY: [&str; 6] = [
    "choice cut",
    "table refused",
    "first chosen part missing",
    "second chosen part missing",
    "third chosen part missing",
    "chosen part missing without a score",
];
const LINES: [&str; 3] = ["line", "line of a refused answer", "end at a bad command"];
const TELLING: [&str; 9] = [
    "tick of ten digits",
    "microstep of three digits",
    "step of ten digits",
    "rounds of two digits",
    "revisions of two digits",
    "absent output",
    "output of 10^9",
    "output of -10^9",
    "line of three outputs that differ",
];

/// The bytes of three part numbers.
const CHOICE: usize = 12;

impl Sheets {
    /// What differs where the sheet of a stream is printed, or none. `lines` are what is rehearsed of it.
    pub fn difference(&mut self, programs: &Programs, ticket: u64, stream: &[u8], lines: &[u8]) -> Option<Difference> {
        let parts = load(stream).ok().map(|accepted| accepted.model.parts.len());
        let mut random = Random::of_bytes(stream);
        let choice = choice(parts.unwrap_or(MOST_PARTS), &mut random);
        let mut input: Vec<u8> = choice.iter().flat_map(|number| number.to_le_bytes()).collect();
        input.extend(stream);
        let cut = random.once_in(100);
        if cut {
            input.truncate(random.below(CHOICE));
        }
        let name = || match cut {
            true => format!("its sheet, of {} bytes", input.len()),
            false => format!("its sheet, of parts {choice:?}"),
        };
        let mut due = Printed { out: Vec::new(), errors: Vec::new() };
        // A vector takes every write.
        let _ = printsheet(&input, &mut due.out, &mut due.errors);
        let accounted = if cut { self.is_of_a_cut(&due) } else { self.is_of_lines(&due, parts, choice, lines) };
        if !accounted {
            return Difference::of(format!("{}: the library's is not the one of its lines", name()));
        }
        match programs.printsheet.run(ticket, &input) {
            Ok(got) if got == due => None,
            Ok(got) if got.errors == due.errors => {
                Difference::of(format!("{}: {}", name(), first_line_that_differs(&due.out, &got.out)))
            }
            Ok(got) => {
                let what = first_line_that_differs(&due.errors, &got.errors);
                Difference::of(format!("{}: on standard error {what}", name()))
            }
            Err(text) => Difference::of(format!("{}: {text}", name())),
        }
    }

    /// Counts a sheet whose choice is cut, and tells whether that is what it says.
    fn is_of_a_cut(&mut self, sheet: &Printed) -> bool {
        self.empty[0] += 1;
        sheet.out.is_empty() && sheet.errors == b"refused 1 at 0\n"
    }

    /// Counts a sheet, and tells whether it is the one that the rehearsed lines give for a table of so many parts.
    fn is_of_lines(&mut self, sheet: &Printed, parts: Option<usize>, choice: [u32; 3], lines: &[u8]) -> bool {
        let missing = parts.and_then(|parts| choice.iter().position(|&number| number as usize >= parts));
        let lines = String::from_utf8_lossy(lines);
        if let Some(at) = missing {
            self.empty[2 + at] += 1;
            self.empty[5] += u64::from(lines.is_empty());
            return sheet.out.is_empty() && sheet.errors == format!("refused 26 at {}\n", 4 * at).as_bytes();
        }
        self.empty[1] += u64::from(parts.is_none());
        let ended = lines.lines().last().is_some_and(|line| line.contains(" at "));
        self.lines[2] += u64::from(parts.is_some() && ended);
        let due: String = lines.lines().map(|line| self.line(line, choice)).collect();
        sheet.errors.is_empty() && sheet.out == due.as_bytes()
    }

    /// Counts a line of an advance, and gives the sheet's for it.
    fn line(&mut self, line: &str, choice: [u32; 3]) -> String {
        let words: Vec<&str> = line.split(' ').collect();
        if let ["refused", ..] = words[..] {
            let is_answer = words.len() == 2;
            self.lines[1] += u64::from(is_answer);
            return if is_answer { format!("{line:78}\n") } else { format!("{line}\n") };
        }
        let [x, y, z] = choice.map(|number| words[5 + number as usize]);
        let has = |output: &str| [x, y, z].contains(&output);
        let digits = |at: usize| words[at].len();
        let telling = [
            digits(0) >= 10,
            digits(1) == 3,
            digits(2) == 10,
            digits(3) == 2,
            digits(4) == 2,
            has("-"),
            has("1000000000"),
            has("-1000000000"),
            x != y && y != z && z != x,
        ];
        self.lines[0] += 1;
        for (count, is_one) in self.telling.iter_mut().zip(telling) {
            *count += u64::from(is_one);
        }
        let [t, n, step, rounds, revisions] = [0, 1, 2, 3, 4].map(|at| words[at]);
        format!("{t:>19} {n:>3} {step:>10} {rounds:>4} {revisions:>2} {x:>11} {y:>11} {z:>11}\n")
    }

    /// Adds what another thread counted.
    pub fn add(&mut self, other: &Sheets) {
        add_each(&mut self.empty, &other.empty);
        add_each(&mut self.lines, &other.lines);
        add_each(&mut self.telling, &other.telling);
    }

    /// Each with its name.
    pub fn named(&self) -> impl Iterator<Item = (&'static str, u64)> + '_ {
        let empty = EMPTY.into_iter().zip(self.empty);
        empty.chain(LINES.into_iter().zip(self.lines)).chain(TELLING.into_iter().zip(self.telling))
    }
}

/// Three of so many parts; now and then numbers that no part has: the next one, one far off, or one whose low bytes are
/// a part's.
fn choice(parts: usize, random: &mut Random) -> [u32; 3] {
    let some_are_missing = random.once_in(12);
    [(); 3].map(|()| {
        let number = random.below(parts) as u32;
        if !some_are_missing || random.once_in(2) {
            return number;
        }
        match random.below(4) {
            0 => parts as u32,
            1 => parts as u32 + random.below(300) as u32,
            2 => number + (1 << random.pick(&[8, 16, 31])),
            _ => u32::MAX,
        }
    })
}
