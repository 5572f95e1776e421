//! The wrong programs of an edit.

use std::fmt;

/// A text of a file, and what is put in its place.
pub struct Replacement {
    pub file: String,
    pub old: String,
    pub new: String,
}

/// Where a wrong program is refused.
#[derive(PartialEq)]
pub enum Place {
    /// A declaration of a file, and a row of it.
    Declaration { file: String, name: String, row: Option<String> },
    /// A function, one of whose goals the checker proved by itself: this goal, or any.
    Function { name: String, goal: Option<String> },
    /// A goal of a function in a file of code, which the checker proved by itself.
    Goal { file: String, goal: String },
}

impl Place {
    /// The place that the words after `# refused in:` name.
    fn read(words: &str) -> Result<Place, String> {
        let parts: Vec<&str> = words.split(' ').collect();
        let owned = |word: &&str| word.to_string();
        match parts[..] {
            ["fn", name, ref goal @ ..] if goal.len() <= 1 => {
                Ok(Place::Function { name: name.to_string(), goal: goal.first().map(owned) })
            }
            [file, name, ref row @ ..] if file.ends_with(".antt") && row.len() <= 1 => {
                Ok(Place::Declaration { file: file.to_string(), name: name.to_string(), row: row.first().map(owned) })
            }
            [file, goal] if file.ends_with(".rt") => Ok(Place::Goal { file: file.to_string(), goal: goal.to_string() }),
            _ => Err(format!("no place: {words}")),
        }
    }
}

impl fmt::Display for Place {
    fn fmt(&self, f: &mut fmt::Formatter) -> fmt::Result {
        match self {
            Place::Declaration { file, name, row: None } => write!(f, "{file} {name}"),
            Place::Declaration { file, name, row: Some(row) } => write!(f, "{file} {name} {row}"),
            Place::Function { name, goal: None } => write!(f, "fn {name}"),
            Place::Function { name, goal: Some(goal) } => write!(f, "fn {name} {goal}"),
            Place::Goal { file, goal } => write!(f, "{file} {goal}"),
        }
    }
}

/// A wrong program: its name, where it is refused, and what makes it.
#[derive(Default)]
pub struct WrongProgram {
    pub name: String,
    pub places: Vec<Place>,
    pub replacements: Vec<Replacement>,
}

impl WrongProgram {
    /// The wrong program, where nothing of it is missing.
    fn whole(self) -> Result<WrongProgram, String> {
        let missing = if self.name.is_empty() {
            "a comment that begins '# NAME: '"
        } else if self.places.is_empty() {
            "a line '# refused in:'"
        } else if self.replacements.is_empty() {
            "a replacement"
        } else {
            return Ok(self);
        };
        Err(format!("a wrong program '{}' without {missing}", self.name))
    }

    /// Takes the name from the first line of its comment.
    fn named(&mut self, comment: &str) {
        let name = comment.split_once(": ").map_or("", |(name, _)| name);
        if self.name.is_empty() && name.chars().all(|c| c.is_ascii_lowercase() || c.is_ascii_digit() || c == '_') {
            self.name = name.to_string();
        }
    }
}

/// An edit: its wrong programs, in order.
pub struct Edit {
    pub programs: Vec<WrongProgram>,
}

impl Edit {
    /// The edit that a file spells, read as `rt` reads it: a line `file:` holds for all pairs after it.
    pub fn read(text: &str) -> Result<Edit, String> {
        let (mut programs, mut now) = (Vec::new(), WrongProgram::default());
        let (mut file, mut old) = (String::new(), None);
        for line in text.lines() {
            if line.starts_with('#') && !now.replacements.is_empty() {
                programs.push(std::mem::take(&mut now).whole()?);
            }
            if let Some(words) = line.strip_prefix("# refused in: ") {
                now.places.push(Place::read(words)?);
            } else if let Some(comment) = line.strip_prefix("# ") {
                now.named(comment);
            } else if let Some(name) = line.strip_prefix("file: ") {
                file = name.to_string();
            } else if let Some(text) = line.strip_prefix("old: ") {
                old = Some(text.to_string());
            } else if let Some(text) = line.strip_prefix("new:") {
                let old = old.take().ok_or("a line 'new:' without one 'old:' before it")?;
                let new = text.strip_prefix(' ').unwrap_or(text).to_string();
                now.replacements.push(Replacement { file: file.clone(), old, new });
            } else {
                return Err(format!("a line that is none of an edit: {line}"));
            }
        }
        programs.push(now.whole()?);
        Ok(Edit { programs })
    }
}
