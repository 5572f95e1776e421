//! The names that a page cites in code, and whether the tree has them.

use crate::tree::{in_name, Names};
use std::collections::HashSet;
use std::path::Path;

/// The spans of code of a page, each with its line.
pub fn spans(page: &str) -> Vec<(usize, &str)> {
    let mut spans = Vec::new();
    for (at, line) in page.lines().enumerate() {
        spans.extend(line.split('`').skip(1).step_by(2).map(|span| (at + 1, span)));
    }
    spans
}

/// What the tree has: its names, its crates and its wrong programs.
pub struct Tree {
    pub names: Names,
    pub crates: HashSet<String>,
    pub programs: HashSet<String>,
}

impl Tree {
    /// What is wrong with a span of code, if something is.
    pub fn fault(&self, span: &str) -> Option<String> {
        if let Some(program) = self.program_named(span) {
            let there = self.programs.contains(program);
            return (!there).then(|| format!("there is no wrong program {program}"));
        }
        if span.contains('/') && !span.contains(' ') {
            return (!path_is_there(span)).then(|| format!("there is no file {span}"));
        }
        let single = !span.contains(' ');
        let words = span.split(|c: char| !in_name(c) && c != '.').map(|word| word.trim_matches('.'));
        let named = words.filter(|word| word.chars().any(|c| c.is_alphabetic()));
        let missing: Vec<&str> = named.filter(|word| !self.has(word, single)).collect();
        (!missing.is_empty()).then(|| format!("the tree has no {}", missing.join(", ")))
    }

    /// The wrong program that a span names: a crate, a stroke and a name.
    pub fn program_named<'a>(&self, span: &'a str) -> Option<&'a str> {
        let (krate, name) = span.split_once('/')?;
        let plain = !name.is_empty() && name.chars().all(|c| c.is_ascii_lowercase() || c.is_ascii_digit() || c == '_');
        (plain && self.crates.contains(krate)).then_some(span)
    }

    /// Whether a word is declared; in an expression a word of one part may be a parameter.
    fn has(&self, word: &str, single: bool) -> bool {
        let of_parts = word.chars().any(|c| c == '-' || c == '_' || c.is_uppercase());
        self.names.declared.contains(word) || (!single && !of_parts && self.names.words.contains(word))
    }
}

/// Whether a path is there, from the top, from the pages or from the crates.
fn path_is_there(path: &str) -> bool {
    ["", "docs", "crates"].iter().any(|folder| Path::new(folder).join(path).exists())
}

/// The files that a page links to and that are not there.
pub fn broken_links(page: &str) -> Vec<String> {
    let targets = page.split("](").skip(1).filter_map(|rest| rest.split(')').next());
    let files = targets.filter(|target| !target.contains("://")).filter_map(|target| target.split('#').next());
    files.filter(|file| !file.is_empty() && !Path::new("docs").join(file).exists()).map(str::to_string).collect()
}
