//! The pages compared with the command: the kinds have the words, ports and operands of docs/MANUAL.md and the bytes of
//! docs/BYTES.md, and the two tables of README.md print the lines that are shown below them.
use front::kinds::{KindWords, KIND_WORDS};
use std::fs;
use std::path::PathBuf;
use std::process::Command;

/// A page of the repository.
fn page(name: &str) -> String {
    let path = PathBuf::from(env!("CARGO_MANIFEST_DIR")).join("../..").join(name);
    fs::read_to_string(path).expect("a page")
}

/// The fields of the rows of the table below a heading row.
fn rows(page: &str, heading: &str) -> Vec<Vec<String>> {
    let (_, below) = page.split_once(heading).expect("the heading row");
    let rows = below.lines().skip(2).take_while(|line| line.starts_with('|'));
    rows.map(|row| row.trim_matches('|').split('|').map(|field| field.trim().replace('`', "")).collect()).collect()
}

/// The lines, without their indentation, of the block after some words. It may have blank lines inside.
fn block(page: &str, words: &str) -> String {
    let (_, below) = page.split_once(words).expect("the words before the block");
    let lines = below.lines().skip(1).skip_while(|line| line.is_empty());
    let inside = lines.map_while(|line| line.strip_prefix("    ").or(line.is_empty().then_some("")));
    let text: String = inside.map(|line| format!("{line}\n")).collect();
    format!("{}\n", text.trim_end())
}

/// A kind's row of docs/MANUAL.md, but for what it shows.
fn row(kind: &KindWords) -> [String; 3] {
    let ports: Vec<String> = (0..kind.ports).map(|port| port.to_string()).collect();
    [kind.word.to_string(), ports.join(", "), kind.operands.join(", ")]
}

#[test]
fn the_kinds_of_the_manual() {
    let told = rows(&page("docs/MANUAL.md"), "| Kind | Ports | Operands | Output |");
    let told: Vec<_> = told.iter().map(|row| row[..3].to_vec()).collect();
    let due: Vec<_> = KIND_WORDS.iter().map(|kind| row(kind).to_vec()).collect();
    assert_eq!(told, due);
}

#[test]
fn the_kinds_of_the_bytes() {
    let told = rows(&page("docs/BYTES.md"), "| Byte | Kind | Byte | Kind | Byte | Kind |");
    let mut told: Vec<(String, String)> = told
        .iter()
        .flat_map(|row| row.chunks(2).map(|pair| (pair[0].clone(), pair[1].clone())))
        .filter(|(byte, _)| !byte.is_empty())
        .collect();
    told.sort();
    let due = KIND_WORDS.iter().enumerate().map(|(number, kind)| (format!("{number:02X}"), kind.word.to_string()));
    assert_eq!(told, due.collect::<Vec<_>>());
}

/// What the command prints of an example. It ends with status 0, and says on standard error what is said.
fn printed(example: &str, options: &[&str], said: &str) -> String {
    let file = PathBuf::from(env!("CARGO_MANIFEST_DIR")).join("../..").join(example);
    let answer =
        Command::new(env!("CARGO_BIN_EXE_rehearse-front")).args(options).arg(&file).output().expect("its answer");
    let told = String::from_utf8_lossy(&answer.stderr).replace(&*file.to_string_lossy(), example);
    assert_eq!((answer.status.code(), told.as_str()), (Some(0), said));
    String::from_utf8_lossy(&answer.stdout).into_owned()
}

/// Sees that README.md shows an example's table, and below a command the lines that the command prints.
fn shown_in_the_readme(example: &str, options: &[&str], said: &str) {
    let readme = page("README.md");
    assert_eq!(page(example), block(&readme, &format!("(`{example}`):")));
    let command = format!("`./rehearse {} {example}` prints", options.join(" "));
    assert_eq!(printed(example, options, said), block(&readme, &command));
}

#[test]
fn the_ball_of_the_readme() {
    shown_in_the_readme("examples/ball.table", &["--names"], "");
}

#[test]
fn the_chime_of_the_readme() {
    let said = "examples/two-bells.table:18: until 130: reached (130, 0) by 19 calls\n";
    shown_in_the_readme("examples/two-bells.table", &["--names", "--only", "treble,tenor"], said);
}

#[test]
fn the_sheet_of_the_manual() {
    let due = block(&page("docs/MANUAL.md"), "The first of the commands above prints a\nsheet:");
    assert_eq!(printed("examples/dropped-trial.hex", &["--sheet", "0,1,2"], ""), due);
}

#[test]
fn the_reset_of_the_manual() {
    let due = block(&page("docs/MANUAL.md"), "examples/reset-crossing.table` prints, among other lines:");
    let said = "examples/reset-crossing.table:42: until 6: reached (6, 0) by 5 calls\n";
    let lines = printed("examples/reset-crossing.table", &["--names", "--only", "hammer,mark"], said);
    assert!(due.lines().count() == 6 && due.lines().all(|line| lines.lines().any(|other| other == line)), "{lines}");
}
