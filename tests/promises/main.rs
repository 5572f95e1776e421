//! Makes the pages of laws and of wrong programs from the tree, and tests the pages that cite the tree.
//!
//!     promises write    writes docs/LAWS.md and docs/EDITS.md
//!     promises          tests: both pages are what it would write; every name that docs/PROMISES.md cites in code is
//!                       declared in the tree, every wrong program that a page cites is one, every file is there;
//!                       docs/DECISIONS.md has each id once, and every id that is cited; CHANGELOG.md is short; each
//!                       bench/history-*.csv has rows of its form
//!
//! The crates are those of crates.txt. It prints a line of figures, or a line for each fault; the status tells.

use std::collections::HashSet;
use std::path::Path;
use std::process::ExitCode;
use std::{env, fs};

mod cited;
mod edits;
mod pages;
mod records;
mod tree;

use cited::{broken_links, spans, Tree};
use tree::{Crate, Names};

const PROMISES: &str = "docs/PROMISES.md";
const DECISIONS: &str = "docs/DECISIONS.md";
const CHANGELOG: &str = "CHANGELOG.md";

/// A page of the repository; an empty one where it is not there.
fn page(path: &str) -> String {
    fs::read_to_string(path).unwrap_or_default()
}

/// The two pages that are made, each with its path.
fn made(crates: &[Crate]) -> [(&'static str, String); 2] {
    let promises = page(PROMISES);
    let cited: HashSet<String> = spans(&promises).into_iter().map(|(_, span)| span.to_string()).collect();
    [("docs/LAWS.md", pages::laws_page(crates, &cited)), ("docs/EDITS.md", pages::edits_page(crates))]
}

/// What the tree has.
fn tree_of(crates: &[Crate]) -> Tree {
    let mut programs = HashSet::new();
    for krate in crates {
        let of_crate = edits::wrong_programs(krate);
        programs.extend(of_crate.iter().map(|program| format!("{}/{}", krate.name, program.name)));
    }
    Tree { names: Names::of(crates), crates: crates.iter().map(|krate| krate.name.clone()).collect(), programs }
}

/// The wrong programs whose comment does not say which fact they break.
fn untold(crates: &[Crate]) -> Vec<String> {
    let mut faults = Vec::new();
    for krate in crates {
        let programs = edits::wrong_programs(krate);
        let silent = programs.iter().filter(|program| program.does.is_empty() || program.breaks.is_empty());
        faults.extend(silent.map(|program| format!("{}/{}: no broken fact is told", krate.name, program.name)));
    }
    faults
}

/// The pages that are not there, or are empty.
fn missing_pages() -> Vec<String> {
    let missing = [PROMISES, DECISIONS, CHANGELOG].into_iter().filter(|path| page(path).trim().is_empty());
    missing.map(|path| format!("{path} is not there")).collect()
}

/// The pages that are not what the tree makes.
fn stale_pages(crates: &[Crate]) -> Vec<String> {
    let stale = made(crates).into_iter().filter(|(path, text)| page(path) != *text);
    stale.map(|(path, _)| format!("{path} is not what the tree makes: tests/promises/run write")).collect()
}

/// The names and files that docs/PROMISES.md cites and the tree has not.
fn promise_faults(tree: &Tree) -> Vec<String> {
    let text = page(PROMISES);
    let wrong = spans(&text).into_iter().filter_map(|(at, span)| tree.fault(span).map(|what| (at, what)));
    let mut faults: Vec<String> = wrong.map(|(at, what)| format!("{PROMISES}:{at}: {what}")).collect();
    faults.extend(broken_links(&text).iter().map(|file| format!("{PROMISES}: there is no {file}")));
    faults
}

/// The wrong programs that any page cites and the tree has not.
fn program_faults(tree: &Tree, path: &str, text: &str) -> Vec<String> {
    let named = spans(text).into_iter().filter_map(|(at, span)| tree.program_named(span).map(|name| (at, name)));
    let missing = named.filter(|(_, name)| !tree.programs.contains(*name));
    missing.map(|(at, name)| format!("{path}:{at}: there is no wrong program {name}")).collect()
}

/// What is wrong with the records of choices and landings, and with what other files cite of them.
fn record_faults(tree: &Tree) -> Vec<String> {
    let (decisions, changelog) = (page(DECISIONS), page(CHANGELOG));
    let mut faults: Vec<String> = Vec::new();
    let mut take = |path: &str, found: Vec<String>| faults.extend(found.iter().map(|what| format!("{path}: {what}")));
    take(DECISIONS, records::decision_faults(&decisions));
    take(DECISIONS, records::long_lines(&decisions));
    take(CHANGELOG, records::long_lines(&changelog));
    take(CHANGELOG, records::long_landings(&changelog));
    let endings = [".md", ".antt", ".rt", ".rs"];
    for file in endings.iter().flat_map(|ending| tree::files_below(Path::new("."), ending)) {
        let ids = records::unknown_ids(&decisions, &file.text);
        take(&file.path, ids.iter().map(|id| format!("{DECISIONS} has no entry {id}")).collect());
    }
    faults.extend(program_faults(tree, DECISIONS, &decisions));
    faults
}

/// The rows of the histories of figures that are none.
fn figure_faults() -> Vec<String> {
    let mut faults = Vec::new();
    for file in tree::files_below(Path::new("bench"), ".csv") {
        let found = records::history_faults(&file.text);
        faults.extend(found.iter().map(|what| format!("{}: {what}", file.path)));
    }
    faults
}

/// All faults of the pages.
fn faults(crates: &[Crate]) -> Vec<String> {
    let tree = tree_of(crates);
    let mut faults = missing_pages();
    faults.extend(stale_pages(crates));
    faults.extend(untold(crates));
    faults.extend(promise_faults(&tree));
    faults.extend(record_faults(&tree));
    faults.extend(figure_faults());
    faults
}

/// Writes the pages, or tests them and tells.
fn main() -> ExitCode {
    let crates = tree::crates();
    if env::args().nth(1).as_deref() == Some("write") {
        let written = made(&crates).iter().all(|(path, text)| fs::write(path, text).is_ok());
        return if written { ExitCode::SUCCESS } else { ExitCode::from(1) };
    }
    let faults = faults(&crates);
    for fault in &faults {
        println!("promises: {fault}");
    }
    if !faults.is_empty() || crates.is_empty() {
        println!("promises: failed: {} faults in {} crates", faults.len(), crates.len());
        return ExitCode::from(1);
    }
    let text = page(PROMISES);
    let (programs, spans) = (tree_of(&crates).programs.len(), spans(&text).len());
    println!("promises: {spans} names in code, {programs} wrong programs, {} crates, nothing is missing", crates.len());
    ExitCode::SUCCESS
}
