//! The pages that are made from the tree: docs/LAWS.md and docs/EDITS.md.

use crate::edits::wrong_programs;
use crate::tree::{head_comment, laws, Crate, File, Law};
use std::collections::HashSet;
use std::fmt::Write;

const LAWS_HEAD: &str = "# Laws\n
`tests/promises/run write` makes this page from the tree, and the gate compares it with the tree.
It has the laws that [PROMISES](PROMISES.md) cites, each with the comment above it or at the head of its statement.
Above a table are the files with their head comments; of a crate that holds laws alone all of them.\n";

const EDITS_HEAD: &str = "# Wrong programs\n
`tests/promises/run write` makes this page from the tree, and the gate compares it with the tree.
A wrong program is cited as `CRATE/NAME`. The gate puts those of an edit (`crates/CRATE/must-fail/EDIT`) into a copy \
of their crate, and sees that the checker refuses each at its place.\n";

/// A text as the cell of a table.
fn cell(text: &str) -> String {
    text.replace('|', "\\|")
}

/// The page of the laws that are cited.
pub fn laws_page(crates: &[Crate], cited: &HashSet<String>) -> String {
    let mut page = LAWS_HEAD.to_string();
    for krate in crates {
        let files = krate.specs.iter().chain(&krate.proofs).filter(|file| !file.path.ends_with("/Lib.antt"));
        let (heads, rows): (String, String) = files.map(|file| laws_of(krate, file, cited)).unzip();
        if !heads.is_empty() || !rows.is_empty() {
            let _ = write!(page, "\n## `{}`\n{}{}", krate.name, after_blank(&heads), table(&rows));
        }
    }
    page
}

/// What the page has of a file: a line with its head comment, and the rows of its laws that are cited. A law whose
/// statement has a file of its own needs no such line.
fn laws_of(krate: &Crate, file: &File, cited: &HashSet<String>) -> (String, String) {
    let listed: Vec<Law> = laws(file).into_iter().filter(|law| cited.contains(&law.name)).collect();
    let path = file.path.trim_start_matches("crates/").trim_start_matches(&krate.name).trim_start_matches('/');
    let mut rows = String::new();
    for law in &listed {
        let says = statement_head(krate, law).unwrap_or_else(|| law.comment.clone());
        let _ = writeln!(rows, "| `{}` | `{path}` | {} |", law.name, cell(&says));
    }
    if krate.is_of_laws() || listed.iter().any(|law| statement_head(krate, law).is_none()) {
        return (format!("- `{path}`: {}\n", head_comment(file)), rows);
    }
    (String::new(), rows)
}

/// The head comment of the file that has a law's statement, where that is a record of its own.
fn statement_head(krate: &Crate, law: &Law) -> Option<String> {
    let record = format!("pub record {} ", law.statement.as_ref()?);
    krate.specs.iter().find(|file| file.text.contains(&record)).map(head_comment)
}

/// A text with a blank line before it, or nothing.
fn after_blank(text: &str) -> String {
    if text.is_empty() {
        String::new()
    } else {
        format!("\n{text}")
    }
}

/// The table of a crate's laws, or nothing.
fn table(rows: &str) -> String {
    let head = "| Law | File | What it says |\n|---|---|---|\n";
    if rows.is_empty() {
        String::new()
    } else {
        format!("\n{head}{rows}")
    }
}

/// The page of the wrong programs.
pub fn edits_page(crates: &[Crate]) -> String {
    let mut page = EDITS_HEAD.to_string();
    for krate in crates {
        let rows: String = wrong_programs(krate).iter().map(edit_row).collect();
        if !rows.is_empty() {
            let head = "| Wrong program | What it does | Broken fact | Refused in | Edit |\n|---|---|---|---|---|\n";
            let _ = write!(page, "\n## `{}`\n\n{head}{rows}", krate.name);
        }
    }
    page
}

/// The row of a wrong program.
fn edit_row(program: &crate::edits::WrongProgram) -> String {
    let places: Vec<String> = program.places.iter().map(|place| format!("`{place}`")).collect();
    let (does, breaks) = (cell(&program.does), cell(&program.breaks));
    format!("| `{}` | {does} | {breaks} | {} | `{}` |\n", program.name, places.join(", "), program.edit)
}
