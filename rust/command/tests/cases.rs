//! Runs the cases of `cases.txt`, each in a folder of its own, and compares status, standard output and standard error
//! with what is written there, byte for byte.
use std::fs;
use std::io::Write;
use std::path::{Path, PathBuf};
use std::process::{Command, Stdio};

/// A case as it is written: `file` is empty where its text is standard input.
#[derive(Default)]
struct Case {
    name: String,
    arguments: Vec<String>,
    file: String,
    text: String,
    status: i32,
    out: String,
    lines: Option<usize>,
    err: String,
}

/// Which text of a case an indented line belongs to.
enum Part {
    Text,
    Out,
    Err,
}

/// A file's text with the characters that cannot be seen.
fn unseen(text: &str) -> String {
    let codes = ['\u{FEFF}', '\u{1B}', '\0', '\u{B}', '\u{C}', '\u{A0}', '\u{2003}'];
    let text = text.replace("\\r", "\r");
    codes.iter().fold(text, |text, &code| text.replace(&format!("\\u{{{:X}}}", code as u32), &code.to_string()))
}

/// A line of a text, as it is meant.
fn meant(line: &str) -> String {
    match line.strip_suffix('\\') {
        Some(line) => line.to_string(),
        None => format!("{line}\n"),
    }
}

/// Reads the cases. An empty line inside a text is a line of it, and the one before a case's name is not.
fn cases(text: &str) -> Vec<Case> {
    let written = text.split("\n## ").skip(1);
    written.map(case).collect()
}

fn case(written: &str) -> Case {
    let mut lines = written.trim_end_matches('\n').lines();
    let mut case = Case { name: lines.next().unwrap_or_default().to_string(), ..Case::default() };
    let mut part = Part::Text;
    for line in lines {
        if line.is_empty() || line.starts_with("    ") {
            let line = meant(line.strip_prefix("    ").unwrap_or_default());
            match part {
                Part::Text => case.text += &unseen(&line),
                Part::Out => case.out += &line,
                Part::Err => case.err += &line,
            }
        } else if let Some(arguments) = line.strip_prefix("$ ") {
            case.arguments = arguments.split_whitespace().map(str::to_string).collect();
        } else if let Some(file) = line.strip_prefix("< ") {
            case.file = file.strip_prefix("standard input").unwrap_or(file).to_string();
        } else if let Some(status) = line.strip_prefix("status ") {
            case.status = status.parse().expect("a status");
        } else if let Some(count) = line.strip_prefix("out of ") {
            case.lines = count.strip_suffix(" lines").and_then(|count| count.parse().ok());
        } else {
            part = if line == "out" { Part::Out } else { Part::Err };
            assert!(line == "out" || line == "err", "{}: {line}", case.name);
        }
    }
    case
}

/// Runs a case in a folder; what differs.
fn tried(case: &Case, folder: &Path) -> Option<String> {
    if !case.file.is_empty() {
        fs::write(folder.join(&case.file), &case.text).expect("a file");
    }
    let mut command = Command::new(env!("CARGO_BIN_EXE_rehearse-front"));
    command.args(&case.arguments).current_dir(folder);
    command.stdin(Stdio::piped()).stdout(Stdio::piped()).stderr(Stdio::piped());
    let mut child = command.spawn().expect("the command");
    let input = if case.file.is_empty() { case.text.as_bytes() } else { &[] };
    // It may end before it reads all.
    let _ = child.stdin.take().expect("its input").write_all(input);
    let answer = child.wait_with_output().expect("its answer");
    let (out, err) = (String::from_utf8_lossy(&answer.stdout), String::from_utf8_lossy(&answer.stderr));
    let printed = match case.lines {
        Some(lines) => out.lines().count() == lines,
        None => out == case.out,
    };
    let same = answer.status.code() == Some(case.status) && printed && err == case.err;
    (!same).then(|| format!("{}: {}\nout\n{out}err\n{err}", case.name, answer.status))
}

#[test]
fn every_case_is_answered() {
    let cases = cases(include_str!("cases.txt"));
    assert!(cases.len() > 80, "there are {} cases", cases.len());
    let differing = cases.iter().enumerate().filter_map(|(number, case)| {
        let folder = PathBuf::from(env!("CARGO_TARGET_TMPDIR")).join(format!("case-{number}"));
        fs::create_dir_all(&folder).expect("a folder");
        let differs = tried(case, &folder);
        fs::remove_dir_all(&folder).expect("no folder");
        differs
    });
    let differing: Vec<String> = differing.collect();
    assert!(differing.is_empty(), "{} differ:\n{}", differing.len(), differing.join("\n"));
}
