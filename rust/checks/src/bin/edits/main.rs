//! Sees that the wrong programs of the must-fail edits say what they show, and show it.
//!
//! An edit, `crates/CRATE/must-fail/TOPIC.edit`, holds one or more wrong programs. Each has a comment, which begins
//! with its name, one or more lines `# refused in: PLACE`, and the replacements that make it. A place is a fact that it
//! breaks:
//!
//! ```text
//! # refused in: FILE DECLARATION [ROW]    an answer, a proof or a law of the crate (.antt), and a row of it
//! # refused in: fn PATH [GOAL]            a goal of a function that the checker proves by itself, whether or not the
//!                                         function has a proof file; PATH begins with the crate
//! # refused in: FILE GOAL                 the same, by the function's file (.rt)
//! ```
//!
//! `edits apply` sees that each edit is well formed, before `rt ci` starts: every text to be replaced is there exactly
//! once, no two wrong programs of an edit change one function or name one place, no two of a crate have one name, and
//! no edit has more than eight of them. `edits refused` reads the logs that `.ci/edits` kept of the edited crates'
//! checks: at every place there must be an error of its own, or the goal must not be proved. An error that follows from
//! another ("was not admitted") is none, nor one that says only that the proof no longer fits the code's shape. Both
//! print a line of figures, or a line for each fault; the status tells. Both take the names of crates, and judge all
//! where none is named.
//!
//! `edits list` prints each crate and edit. `edits put CRATE EDIT FOLDER` writes the files that an edit changes, as it
//! leaves them, below a folder.

use std::collections::HashMap;
use std::path::{Path, PathBuf};
use std::process::ExitCode;
use std::{env, fs};

mod edit;
mod log;

use edit::{Edit, WrongProgram};
use log::Log;

/// How many wrong programs an edit holds at most.
const MOST: usize = 8;

/// An edit with its crate and its name.
struct Named {
    krate: String,
    label: String,
    edit: Edit,
}

impl Named {
    /// A fault with its edit.
    fn fault(&self, what: &str) -> String {
        format!("{}/{}: {what}", self.krate, self.label)
    }
}

/// All edits of the repository, by crate and name, and the faults of those that cannot be read.
fn edits(faults: &mut Vec<String>) -> Vec<Named> {
    let mut all = Vec::new();
    for krate in names_in(Path::new("crates")) {
        let folder = Path::new("crates").join(&krate).join("must-fail");
        for file in names_in(&folder) {
            let Some(label) = file.strip_suffix(".edit") else { continue };
            match fs::read_to_string(folder.join(&file)).map_err(|e| e.to_string()).and_then(|text| Edit::read(&text)) {
                Ok(edit) => all.push(Named { krate: krate.clone(), label: label.to_string(), edit }),
                Err(what) => faults.push(format!("{krate}/{label}: {what}")),
            }
        }
    }
    all
}

/// The names in a folder, in order; none where there is no folder.
fn names_in(folder: &Path) -> Vec<String> {
    let mut names: Vec<String> = fs::read_dir(folder)
        .map(|entries| entries.flatten().map(|e| e.file_name().to_string_lossy().into_owned()).collect())
        .unwrap_or_default();
    names.sort();
    names
}

/// The files of a crate that an edit changes, as it leaves them, one replacement after the other.
fn applied(named: &Named) -> Result<HashMap<&str, String>, String> {
    let mut files: HashMap<&str, String> = HashMap::new();
    for replacement in named.edit.programs.iter().flat_map(|p| &p.replacements) {
        let path = PathBuf::from("crates").join(&named.krate).join(&replacement.file);
        if !files.contains_key(replacement.file.as_str()) {
            let text = fs::read_to_string(&path).map_err(|_| format!("there is no {}", replacement.file))?;
            files.insert(&replacement.file, text);
        }
        let text = files.get_mut(replacement.file.as_str()).expect("just put there");
        let times = text.matches(replacement.old.as_str()).count();
        if times != 1 {
            return Err(format!("in {} there is {times} times: {}", replacement.file, replacement.old));
        }
        *text = text.replacen(&replacement.old, &replacement.new, 1);
    }
    Ok(files)
}

/// Writes the files that an edit changes, as it leaves them, below a folder.
fn put(named: &Named, folder: &Path) -> Result<(), String> {
    for (file, text) in applied(named)? {
        let path = folder.join(file);
        let above = path.parent().unwrap_or(folder);
        fs::create_dir_all(above)
            .and_then(|()| fs::write(&path, text))
            .map_err(|_| format!("{} cannot be written", path.display()))?;
    }
    Ok(())
}

/// The impl or the trait that has a function, by its own line, where the function's line is further in than that.
fn owner<'a>(before: &[&'a str], function: &str) -> &'a str {
    let depth = |line: &str| line.len() - line.trim_start().len();
    let begins = |line: &str| ["impl", "trait", "pub trait"].iter().any(|word| line.trim_start().starts_with(word));
    let mut above = before.iter().rev().filter(|line| begins(line) && depth(line) < depth(function));
    above.next().copied().unwrap_or_default()
}

/// The function that a wrong program changes first, by the line that begins it and that of its impl, or the changed
/// line where there is none.
fn function_changed(named: &Named, program: &WrongProgram) -> String {
    let replacement = &program.replacements[0];
    let path = PathBuf::from("crates").join(&named.krate).join(&replacement.file);
    let text = fs::read_to_string(path).unwrap_or_default();
    let before = text.split(replacement.old.as_str()).next().unwrap_or_default();
    let begins =
        |line: &&str| replacement.file.starts_with("src/") && (line.contains("fn ") || line.contains("const "));
    let own = replacement.old.lines().next().filter(|line| line.contains("const "));
    let line = own.or_else(|| before.lines().rev().find(begins)).unwrap_or(&replacement.old);
    let owner = owner(&before.lines().collect::<Vec<_>>(), line);
    format!("{} {} {}", replacement.file, owner.trim(), line.trim())
}

/// What is wrong with an edit's form.
fn form_faults(named: &Named) -> Vec<String> {
    let mut faults = Vec::new();
    if let Err(what) = applied(named) {
        faults.push(named.fault(&what));
    }
    if named.edit.programs.len() > MOST {
        faults.push(named.fault(&format!("more than {MOST} wrong programs")));
    }
    for (i, program) in named.edit.programs.iter().enumerate() {
        for other in &named.edit.programs[..i] {
            let function = function_changed(named, program);
            if function == function_changed(named, other) {
                faults.push(named.fault(&format!("two wrong programs change one function: {function}")));
            }
            if let Some(place) = program.places.iter().find(|place| other.places.contains(place)) {
                faults.push(named.fault(&format!("two wrong programs name one place: {place}")));
            }
        }
    }
    faults
}

/// What an edit's log does not show.
fn refusal_faults(named: &Named) -> Vec<String> {
    let kept = PathBuf::from("target/must-fail").join(&named.krate).join(&named.label).join(".log");
    let Ok(log) = fs::read_to_string(kept).map(|text| Log::read(&text)) else {
        return vec![named.fault("it left no log")];
    };
    let edited = applied(named).unwrap_or_default();
    let own = |file: &str| fs::read_to_string(PathBuf::from("crates").join(&named.krate).join(file)).ok();
    let texts = |file: &str| edited.get(file).cloned().or_else(|| own(file));
    let places = named.edit.programs.iter().flat_map(|p| &p.places);
    places.filter_map(|place| log.missing(place, &texts).map(|what| named.fault(&what))).collect()
}

/// The names that two wrong programs of a crate have.
fn names_twice(all: &[Named]) -> Vec<String> {
    let mut names: Vec<String> = Vec::new();
    for named in all {
        names.extend(named.edit.programs.iter().map(|p| format!("{}/{}", named.krate, p.name)));
    }
    names.sort();
    names.windows(2).filter(|pair| pair[0] == pair[1]).map(|pair| format!("{}: two have this name", pair[0])).collect()
}

/// Prints the crate and the name of each edit.
fn list(all: &[Named], faults: &[String]) -> Result<(), String> {
    all.iter().for_each(|named| println!("{} {}", named.krate, named.label));
    faults.first().map_or(Ok(()), |fault| Err(fault.clone()))
}

/// The edit of a crate and a name.
fn find<'a>(all: &'a [Named], krate: &str, label: &str) -> Result<&'a Named, String> {
    let mut found = all.iter().filter(|named| named.krate == krate && named.label == label);
    found.next().ok_or_else(|| format!("there is no edit {krate}/{label}"))
}

/// Ends with what failed, if something did.
fn ended(done: Result<(), String>) -> ExitCode {
    let Err(what) = done else { return ExitCode::SUCCESS };
    println!("edits: {what}");
    ExitCode::from(1)
}

/// Judges edits, and prints the faults.
fn judged(all: &[Named], mut faults: Vec<String>, judge: fn(&Named) -> Vec<String>, said: &str) -> ExitCode {
    faults.extend(names_twice(all));
    faults.extend(all.iter().flat_map(judge));
    for fault in &faults {
        println!("edits: {fault}");
    }
    if !faults.is_empty() || all.is_empty() {
        println!("edits: failed: {} faults in {} edits", faults.len(), all.len());
        return ExitCode::from(1);
    }
    let programs: usize = all.iter().map(|named| named.edit.programs.len()).sum();
    println!("edits: {programs} wrong programs in {} edits, {said}", all.len());
    ExitCode::SUCCESS
}

/// Does what the arguments say.
fn main() -> ExitCode {
    let mut faults = Vec::new();
    let mut all = edits(&mut faults);
    let words: Vec<String> = env::args().skip(1).collect();
    match words.iter().map(String::as_str).collect::<Vec<_>>()[..] {
        [verb @ ("apply" | "refused"), ref crates @ ..] => {
            all.retain(|named| crates.is_empty() || crates.contains(&named.krate.as_str()));
            match verb {
                "apply" => judged(&all, faults, form_faults, "each can be applied"),
                _ => judged(&all, faults, refusal_faults, "each refused for the fact that it names"),
            }
        }
        ["list"] => ended(list(&all, &faults)),
        ["put", krate, label, folder] => {
            ended(find(&all, krate, label).and_then(|named| put(named, Path::new(folder))))
        }
        _ => {
            eprintln!("usage: edits apply|refused [CRATE ..] | list | put CRATE EDIT FOLDER, at the repository's root");
            ExitCode::from(2)
        }
    }
}
