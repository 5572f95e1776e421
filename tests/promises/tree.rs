//! What is read of the tree: its crates, their files, the names that these declare and the laws that they prove.

use std::collections::HashSet;
use std::fs;
use std::path::{Path, PathBuf};

/// A file of a crate, with its path from the top of the repository.
pub struct File {
    pub path: String,
    pub text: String,
}

/// A law: a public declaration that is proved, the comment above it, and the statement where that is one name.
pub struct Law {
    pub name: String,
    pub comment: String,
    pub statement: Option<String>,
}

/// A crate of crates.txt, with its files of code, of definitions and laws, and of proofs.
pub struct Crate {
    pub name: String,
    pub code: Vec<File>,
    pub specs: Vec<File>,
    pub proofs: Vec<File>,
}

impl Crate {
    /// Whether it has no function, so that all it holds is laws.
    pub fn is_of_laws(&self) -> bool {
        !self.code.iter().any(|file| file.text.lines().any(|line| line.trim_start().contains("fn ") && !comment(line)))
    }

    /// All its files.
    pub fn files(&self) -> impl Iterator<Item = &File> {
        self.code.iter().chain(&self.specs).chain(&self.proofs)
    }
}

/// The crates that crates.txt names, in its order.
pub fn crates() -> Vec<Crate> {
    let list = fs::read_to_string("crates.txt").unwrap_or_default();
    let heads = list.lines().filter(|line| !line.starts_with('#')).filter_map(|line| line.split_once(':'));
    // After its name a static library is called one.
    heads.filter_map(|(head, _)| head.split_whitespace().next()).map(read_crate).collect()
}

/// One crate with its files.
fn read_crate(name: &str) -> Crate {
    let folder = Path::new("crates").join(name);
    let files = |part: &str, ending: &str| files_below(&folder.join(part), ending);
    Crate {
        name: name.to_string(),
        code: files("src", ".rt"),
        specs: files("specs", ".antt"),
        proofs: files("proofs", ".antt"),
    }
}

/// The files below a folder with an ending, in the order of their paths.
pub fn files_below(folder: &Path, ending: &str) -> Vec<File> {
    let mut files = Vec::new();
    for path in entries(folder) {
        let name = path.to_string_lossy().into_owned();
        if path.is_dir() {
            files.extend(files_below(&path, ending));
        } else if name.ends_with(ending) {
            files.push(File { path: name, text: fs::read_to_string(&path).unwrap_or_default() });
        }
    }
    files.sort_by(|a, b| a.path.cmp(&b.path));
    files
}

/// The paths in a folder, without those that git or a build keeps there: target of the repository and of the workspace,
/// out of a crate.
fn entries(folder: &Path) -> Vec<PathBuf> {
    let entries = fs::read_dir(folder).into_iter().flatten().flatten().map(|entry| entry.path());
    let kept = |path: &PathBuf| [".git", "target"].iter().any(|name| path.ends_with(name)) || is_out(path);
    entries.filter(|path| !kept(path)).collect()
}

/// Whether a path is the folder in which rt keeps what it makes of a crate. A function's proofs may have that name.
fn is_out(path: &Path) -> bool {
    path.ends_with("out") && path.with_file_name("src").is_dir()
}

/// Whether a line is a comment.
pub fn comment(line: &str) -> bool {
    line.trim_start().starts_with("--") || line.trim_start().starts_with("//")
}

/// The words of a comment's lines, without their marks.
fn comment_words<'a>(lines: impl Iterator<Item = &'a str>) -> String {
    let texts = lines.map(|line| line.trim_start().trim_start_matches(['-', '/']).trim());
    texts.collect::<Vec<_>>().join(" ").trim().to_string()
}

/// The comment at the head of a file, without the sentence that every file of laws has.
pub fn head_comment(file: &File) -> String {
    comment_words(file.text.lines().take_while(|line| comment(line))).replace(" Assumes nothing.", "")
}

/// The laws of a file: public declarations that no program unfolds, and that are no field of a record. One without a
/// comment has that of the declaration before it.
pub fn laws(file: &File) -> Vec<Law> {
    let lines: Vec<&str> = file.text.lines().collect();
    let (mut laws, mut record, mut told) = (Vec::new(), None, String::new());
    for (at, line) in lines.iter().enumerate() {
        let depth = line.len() - line.trim_start().len();
        if record.is_some_and(|above| depth <= above) {
            record = None;
        }
        let words: Vec<&str> = line.split_whitespace().collect();
        match words[..] {
            ["pub", "record" | "data", ..] => {
                told = comment_above(&lines, at, &told);
                record = Some(depth);
            }
            ["pub", name, ":", ref of @ ..] if record.is_none() => {
                told = comment_above(&lines, at, &told);
                let statement = if let [statement] = of { Some(statement.to_string()) } else { None };
                laws.push(Law { name: name.to_string(), comment: told.clone(), statement });
            }
            _ => {}
        }
    }
    laws
}

/// The comment right above a line, or another text where there is none.
fn comment_above(lines: &[&str], at: usize, otherwise: &str) -> String {
    let above = lines[..at].iter().rev().take_while(|line| comment(line)).count();
    let words = comment_words(lines[at - above..at].iter().copied());
    if words.is_empty() {
        otherwise.to_string()
    } else {
        words
    }
}

/// The names and words of the tree.
#[derive(Default)]
pub struct Names {
    /// What is declared: crates, modules, files, types, cases, fields, functions, definitions and laws; and what a file
    /// takes of the kit's library, which the checker has found there.
    pub declared: HashSet<String>,
    /// All words of code, parameters among them.
    pub words: HashSet<String>,
}

impl Names {
    /// Those of all crates.
    pub fn of(crates: &[Crate]) -> Names {
        let mut names = Names::default();
        for krate in crates {
            names.declared.insert(krate.name.clone());
            krate.files().for_each(|file| names.take_file(file));
        }
        names
    }

    /// Takes the name of a file, and what its lines declare.
    fn take_file(&mut self, file: &File) {
        let name = file.path.rsplit('/').next().unwrap_or_default();
        self.declared.insert(name.to_string());
        self.declared.extend(name.split_once('.').map(|(stem, _)| stem.to_string()));
        for line in file.text.lines().filter(|line| !comment(line)) {
            self.declared.extend(taken_of_library(line));
            self.words.extend(line.split(|c| !in_name(c)).map(str::to_string));
            if file.path.ends_with(".rt") {
                self.words.extend(line.split(|c| !in_name(c) || c == '-').map(str::to_string));
                self.declared.extend(declared_in_code(line));
            } else {
                self.declared.extend(declared_in_law(line));
            }
        }
    }
}

/// Whether a character may be in a name.
pub fn in_name(c: char) -> bool {
    c.is_alphanumeric() || matches!(c, '-' | '_' | '′' | '∸')
}

/// The names that a line takes of the kit's library: `use Rattle.std.specs.Prelude.{Option, Some}`.
fn taken_of_library(line: &str) -> Vec<String> {
    let path = line.trim_start().trim_start_matches("ghost ").strip_prefix("use Rattle.std.");
    let listed = path.and_then(|path| path.split_once('{')).and_then(|(_, rest)| rest.split_once('}'));
    let names = listed.map_or("", |(names, _)| names).split(", ");
    names.filter(|name| !name.is_empty() && name.chars().all(in_name)).map(str::to_string).collect()
}

/// What a line of code declares: the word after a keyword, or a field or case at its beginning.
fn declared_in_code(line: &str) -> Option<String> {
    let words: Vec<&str> = line.split(|c: char| !in_name(c)).filter(|word| !word.is_empty()).collect();
    let keyword = |word: &&str| matches!(*word, "fn" | "struct" | "enum" | "trait" | "const" | "mod" | "type");
    let named = words.iter().position(keyword).and_then(|at| words.get(at + 1));
    let own = words.iter().find(|word| **word != "pub").filter(|word| {
        let rest = line.split_once(**word).map_or("", |(_, rest)| rest);
        rest.starts_with([':', ',', '(', '{'])
    });
    named.or(own).map(|word| word.to_string())
}

/// What a line of definitions, laws or proofs declares: the names before its first colon.
fn declared_in_law(line: &str) -> Vec<String> {
    let modifier = |word: &&str| matches!(*word, "pub" | "abbrev" | "unfoldable" | "record" | "data" | "mod" | "|");
    let words: Vec<&str> = line.split_whitespace().collect();
    let after = words.iter().take_while(|word| modifier(word)).count();
    let sort = words[..after].iter().any(|word| matches!(*word, "record" | "data" | "mod"));
    let plain = |word: &&&str| word.chars().all(in_name);
    let names: Vec<String> = words[after..].iter().take_while(plain).map(|word| word.to_string()).collect();
    if sort {
        return names.into_iter().take(1).collect();
    }
    if words.get(after + names.len()) == Some(&":") {
        names
    } else {
        Vec::new()
    }
}
