//! The wrong programs of the must-fail edits: what each does, the fact that it breaks, and where it is refused.

use crate::tree::{files_below, Crate};
use std::path::Path;

/// A wrong program, as the comment above it tells.
#[derive(Default)]
pub struct WrongProgram {
    pub name: String,
    pub edit: String,
    pub does: String,
    pub breaks: String,
    pub places: Vec<String>,
}

/// The wrong programs of a crate, edit by edit.
pub fn wrong_programs(krate: &Crate) -> Vec<WrongProgram> {
    let folder = Path::new("crates").join(&krate.name).join("must-fail");
    let files = files_below(&folder, ".edit");
    let told = files.iter().flat_map(|file| comments(&file.text).into_iter().map(move |lines| (&file.path, lines)));
    told.map(|(path, lines)| read(path, &lines)).collect()
}

/// The comments of an edit, each the lines in a row that begin with `# `.
fn comments(text: &str) -> Vec<Vec<&str>> {
    let lines: Vec<Option<&str>> = text.lines().map(|line| line.strip_prefix("# ")).collect();
    let runs = lines.split(|line| line.is_none()).filter(|run| !run.is_empty());
    runs.map(|run| run.iter().flatten().copied().collect()).collect()
}

/// A wrong program from the path of its edit and the lines of its comment.
fn read(path: &str, lines: &[&str]) -> WrongProgram {
    let place = |line: &&str| line.strip_prefix("refused in: ").map(str::to_string);
    let words: Vec<&str> = lines.iter().copied().filter(|line| place(line).is_none()).collect();
    let text = words.join(" ");
    let (name, told) = text.split_once(": ").unwrap_or(("", &text));
    let broken = told.split_once("Broken fact: ").or_else(|| told.split_once("Broken facts: "));
    let (does, breaks) = broken.unwrap_or((told, ""));
    WrongProgram {
        name: name.to_string(),
        edit: path.rsplit('/').next().unwrap_or_default().to_string(),
        does: does.trim().to_string(),
        breaks: breaks.trim().to_string(),
        places: lines.iter().filter_map(place).collect(),
    }
}
