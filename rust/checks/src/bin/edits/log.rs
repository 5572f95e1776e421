//! What the checker said of an edit.

use crate::edit::Place;

/// What a file of the crate has, as the edit leaves it.
pub type Texts<'a> = &'a dyn Fn(&str) -> Option<String>;

/// What an error says that only a proof's shape caused: a goal, a place on the way to one, or a fact there has another
/// name or is gone.
const UNFIT: [&str; 3] = ["has no `", "has no field", "is not in scope"];

/// What an error says that follows from another.
const FOLLOWS: [&str; 2] = ["was not admitted", "was rejected"];

/// What a note says of a goal that the checker does not prove by itself, and what it adds where it knows values for
/// which the goal is false.
const OPEN: &str = ": it is not proved that ";
const FALSE: &str = "allow values at which this goal is false";

/// An error in a file of the crate: its line and column, the declaration that it is in, and what it says.
struct Error {
    file: String,
    line: usize,
    column: usize,
    declaration: String,
    said: String,
}

impl Error {
    /// The error that a line of the log begins.
    fn read(line: &str) -> Option<Error> {
        let (place, said) = line.split_once(": error: ")?;
        let (file, line, column) = placed(place)?;
        let declaration = said.strip_prefix('`').and_then(|rest| rest.split_once("`: ")).map_or("", |(name, _)| name);
        Some(Error { file, line, column, declaration: declaration.to_string(), said: said.to_string() })
    }

    /// Whether the error follows from another.
    fn follows(&self) -> bool {
        FOLLOWS.iter().any(|words| self.said.contains(words))
    }

    /// Whether it says only that the proof no longer fits the code's shape.
    fn unfit(&self) -> bool {
        UNFIT.iter().any(|words| self.said.contains(words))
    }

    /// Whether it is in the answers that a function's goals have, each for itself.
    fn in_answers(&self) -> bool {
        self.file.ends_with("/Answers.antt")
    }

    /// The row that it is in: the last name before it with a sign of equality, but for those that `let` gives.
    fn row(&self, texts: Texts) -> Option<String> {
        let text = texts(&self.file)?;
        let mut lines: Vec<String> = text.lines().take(self.line).map(str::to_string).collect();
        let last = lines.last_mut()?;
        *last = last.chars().take(self.column.saturating_sub(1)).collect();
        let before = lines.join(" ");
        let words: Vec<&str> = before.split_whitespace().collect();
        let at = (1..words.len()).rev().find(|&k| words[k] == "=" && (k < 2 || words[k - 2] != "let"))?;
        Some(words[at - 1].to_string())
    }
}

/// The file, the line and the column that a place spells.
fn placed(place: &str) -> Option<(String, usize, usize)> {
    let mut parts = place.rsplitn(3, ':');
    let (column, line, file) = (parts.next()?, parts.next()?, parts.next()?);
    Some((file.trim_start_matches("./").to_string(), line.parse().ok()?, column.parse().ok()?))
}

/// A goal that the checker tried to prove by itself and did not: its function, the file of code, its name, and whether
/// the checker knows values for which it is false.
struct Fallen {
    function: String,
    file: String,
    goal: String,
    is_false: bool,
}

impl Fallen {
    /// The goal that a note of the log tells, of a function that the log names after it.
    fn read(line: &str) -> Option<Fallen> {
        let (place, said) = line.strip_prefix("note: ")?.split_once(OPEN)?;
        let (file, _, _) = placed(place)?;
        let goal = said.split_once("(`")?.1.split_once("`)")?.0;
        Some(Fallen { function: String::new(), file, goal: goal.to_string(), is_false: said.contains(FALSE) })
    }

    /// The folder of its function's proofs, as a proof file's path begins.
    fn proofs(&self) -> String {
        let parts: Vec<&str> = self.function.split("::").skip(1).collect();
        format!("proofs/{}/", parts.join("/"))
    }
}

/// The function whose end a line of the log tells.
fn function_told(line: &str) -> Option<&str> {
    line.strip_prefix("fn ")?.split_once(": ").map(|(name, _)| name)
}

/// What a log shows of a place: that it is refused, that a proof only no longer fits, or nothing.
enum Shown {
    Refused,
    Unfit(String),
    Nothing,
}

/// The errors of a log, and the goals that the checker did not prove by itself.
pub struct Log {
    errors: Vec<Error>,
    fallen: Vec<Fallen>,
}

impl Log {
    /// What a check printed.
    pub fn read(text: &str) -> Log {
        let (mut errors, mut fallen): (Vec<Error>, Vec<Fallen>) = (Vec::new(), Vec::new());
        let mut open = false;
        for line in text.lines() {
            if line.starts_with(' ') {
                if let (true, Some(error)) = (open, errors.last_mut()) {
                    error.said.push(' ');
                    error.said.push_str(line.trim_start());
                }
                continue;
            }
            let error = Error::read(line);
            open = error.is_some();
            errors.extend(error);
            fallen.extend(Fallen::read(line));
            // A function's notes are above its own line.
            let Some(function) = function_told(line) else { continue };
            for goal in fallen.iter_mut().rev().take_while(|goal| goal.function.is_empty()) {
                goal.function = function.to_string();
            }
        }
        Log { errors, fallen }
    }

    /// What is missing at a place, if anything is.
    pub fn missing(&self, place: &Place, texts: Texts) -> Option<String> {
        let shown = match place {
            Place::Declaration { file, name, row } => self.declaration_shown(file, name, row.as_deref(), texts),
            Place::Function { name, goal: None } => self.goal_shown(|fallen| &fallen.function == name),
            Place::Function { name, goal: Some(goal) } => {
                self.goal_shown(|fallen| &fallen.function == name && &fallen.goal == goal)
            }
            Place::Goal { file, goal } => self.goal_shown(|fallen| &fallen.file == file && &fallen.goal == goal),
        };
        match shown {
            Shown::Refused => None,
            Shown::Unfit(what) => Some(format!("{what} only became unfit")),
            Shown::Nothing => Some(format!("not refused in {place}")),
        }
    }

    /// What the log shows of a declaration. A proof that is one walk of the code is unfit from its first error on; the
    /// answers to a function's goals are each for themselves.
    fn declaration_shown(&self, file: &str, name: &str, row: Option<&str>, texts: Texts) -> Shown {
        let in_file = || self.errors.iter().filter(|error| error.file == file);
        let mut walk = in_file().filter(|error| !error.in_answers() || error.declaration == name);
        if walk.next().is_some_and(Error::unfit) {
            return Shown::Unfit(file.to_string());
        }
        let here = |e: &&Error| e.declaration == name && (row.is_none() || e.row(texts).as_deref() == row);
        let mut own = in_file().filter(here).filter(|error| !error.follows() && !error.unfit());
        own.next().map_or(Shown::Nothing, |_| Shown::Refused)
    }

    /// What the log shows of a goal that the checker proved by itself. Where an answer of its function became unfit, an
    /// edit gave goals other names, and one that falls may want the answer that it had: then it has to be false for
    /// values that the checker knows.
    fn goal_shown(&self, here: impl Fn(&Fallen) -> bool) -> Shown {
        let unfit = |fallen: &Fallen| {
            let proofs = fallen.proofs();
            self.errors.iter().any(|error| error.file.starts_with(&proofs) && error.unfit())
        };
        let fallen: Vec<&Fallen> = self.fallen.iter().filter(|fallen| here(fallen)).collect();
        match fallen.first() {
            None => Shown::Nothing,
            Some(_) if fallen.iter().any(|fallen| fallen.is_false || !unfit(fallen)) => Shown::Refused,
            Some(first) => Shown::Unfit(first.proofs()),
        }
    }
}
