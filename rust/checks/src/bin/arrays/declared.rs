//! The declarations in sources, by their words alone. A name means whatever has it in any file.

use crate::failed;
use std::collections::BTreeSet;

/// The words and signs of a source, without comments.
pub fn words_of(source: &str) -> Vec<String> {
    let mut words: Vec<String> = Vec::new();
    for line in source.lines() {
        let line = line.split("//").next().unwrap();
        let mut rest = line.trim_start();
        while let Some(first) = rest.chars().next() {
            let end = match first {
                c if c.is_alphanumeric() || c == '_' => {
                    rest.find(|c: char| !c.is_alphanumeric() && c != '_').unwrap_or(rest.len())
                }
                _ => first.len_utf8(),
            };
            words.push(rest[..end].to_string());
            rest = rest[end..].trim_start();
        }
    }
    words
}

/// Whether the statement that these words end in is a `use`: `as` converts a number elsewhere.
fn in_use(words: &[String]) -> bool {
    let begin = words.iter().rposition(|word| [";", "{", "}"].contains(&word.as_str())).map_or(0, |at| at + 1);
    words[begin..].iter().any(|word| word == "use")
}

/// The words of each record, and of each name that means a type.
fn declarations(words: &[String]) -> Vec<(String, Vec<String>)> {
    let mut found = Vec::new();
    for at in 0..words.len().saturating_sub(1) {
        let until = |ends: &[&str]| -> Vec<String> {
            let mut depth = 0;
            let mut body = Vec::new();
            for word in &words[at + 2..] {
                match word.as_str() {
                    "{" | "(" | "[" => depth += 1,
                    "}" | ")" | "]" => depth -= 1,
                    _ => (),
                }
                body.push(word.clone());
                if depth == 0 && ends.contains(&word.as_str()) {
                    break;
                }
            }
            body
        };
        match words[at].as_str() {
            "struct" | "enum" => found.push((words[at + 1].clone(), until(&["}", ";"]))),
            "type" => found.push((words[at + 1].clone(), until(&[";"]))),
            "as" if in_use(&words[..at]) && words[at + 2..].first().is_some_and(|word| word == ";") => {
                found.push((words[at + 1].clone(), vec![words[at - 1].clone()]))
            }
            _ => (),
        }
    }
    found
}

/// A record or another name of a type: its file, its name and the words of its declaration.
struct Declared {
    file: String,
    name: String,
    body: Vec<String>,
}

/// The names of all types that hold a signal.
fn holding_signals(declared: &[Declared]) -> BTreeSet<String> {
    let mut holding = BTreeSet::from(["Signal".to_string()]);
    loop {
        let before = holding.len();
        let more: Vec<String> = declared
            .iter()
            .filter(|one| one.body.iter().any(|word| holding.contains(word)))
            .map(|one| one.name.clone())
            .collect();
        holding.extend(more);
        if holding.len() == before {
            return holding;
        }
    }
}

/// The element of the array or slice whose bracket is at a place of these words, where it holds a signal and the array
/// is not one of parts.
fn element_of_signals(body: &[String], at: usize, holding: &BTreeSet<String>) -> Option<String> {
    if body[at] != "[" {
        return None;
    }
    // From a bracket to the end of the element: `[machine::signal::Signal; 32]`, `&[Signal]`, `[[Signal; 2]; 3]`.
    let mut depth = 0;
    let inside: Vec<&String> = body[at + 1..]
        .iter()
        .take_while(|word| {
            match word.as_str() {
                "[" => depth += 1,
                "]" => depth -= 1,
                _ => (),
            }
            depth > 0 || (depth == 0 && *word != ";")
        })
        .collect();
    let slice = body.get(at + 1 + inside.len()).is_some_and(|word| word == "]");
    let parts = inside.last().is_some_and(|word| *word == "Part") && !inside.iter().any(|word| *word == "[") && !slice;
    let found = !parts && inside.iter().any(|word| holding.contains(*word));
    found.then(|| inside.iter().map(|word| word.as_str()).collect())
}

/// The declared records that hold an array of signals; a line for each.
pub fn search_declared(files: &[String]) -> Vec<String> {
    let mut declared = Vec::new();
    for file in files {
        let source = std::fs::read_to_string(file).unwrap_or_else(|_| failed(&format!("{file} cannot be read")));
        let found = declarations(&words_of(&source));
        declared.extend(found.into_iter().map(|(name, body)| Declared { file: file.clone(), name, body }));
    }
    let holding = holding_signals(&declared);
    if !holding.contains("Part") {
        failed("no record Part with a signal is declared: the search looks for another type");
    }
    let mut found = Vec::new();
    for Declared { file, name, body } in &declared {
        let elements = (0..body.len()).filter_map(|at| element_of_signals(body, at, &holding));
        found.extend(elements.map(|element| format!("{file}: {name} declares an array of {element}")));
    }
    found
}
