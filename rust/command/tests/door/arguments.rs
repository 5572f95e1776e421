//! The arguments: which go together, where the options end, help and the version.
use crate::root::{started, Root, BYTES, INPUT, SPELLED, TEXT};
use std::fs::File;

/// Sees that arguments are no usage, and that the usage is told.
fn misused(root: &Root, name: &str, why: &str, arguments: &[&str]) {
    root.expect(name, arguments, 2, "", &format!("rehearse: {why}\nusage: rehearse [OPTIONS] [FILE] *\n  --  *"));
}

#[test]
fn where_the_options_end() {
    let root = Root::new("end");
    ["-h", "--save", "--table", "-", "--sheet"].iter().for_each(|name| root.write(name, BYTES));
    root.write("-x.hex", TEXT);
    root.expect("standard input by a dash", &["-"], 0, INPUT, "");
    root.expect("no file behind the end of the options", &["--"], 0, INPUT, "");
    root.expect("a dash behind it", &["--", "-"], 0, INPUT, "");
    for file in ["bytes", "-x.hex", "-h", "--save", "--table", "./-"] {
        let shown = if file == "-x.hex" { SPELLED } else { BYTES };
        root.expect(&format!("{file} behind the end of the options"), &["--", file], 0, shown, "");
    }
    root.expect("a file that is named as a short option is", &["./-h"], 0, BYTES, "");
    root.expect("a file that is named as the option is", &["./--save"], 0, BYTES, "");
    root.expect("a file that is named as that option is", &["./--sheet"], 0, BYTES, "");
    root.expect("a name with one dash is a file", &["-hex"], 2, "", "rehearse: -hex: no such file");
}

#[test]
fn files_and_values_that_are_wrong() {
    let root = Root::new("misused");
    root.write("chime.table", "");
    let second = |file: &str| format!("{file}: a second FILE, and one is read");
    misused(&root, "two arguments", &second("bytes"), &["bytes", "bytes"]);
    misused(&root, "a sheet of two files", &second("bytes"), &["--sheet", "0,1,2", "bytes", "bytes"]);
    misused(&root, "bad usage, chime.table chime.table", &second("chime.table"), &["chime.table", "chime.table"]);
    misused(&root, "bad usage, --names bytes bytes", &second("bytes"), &["--names", "bytes", "bytes"]);
    misused(&root, "bad usage, --names -- bytes -h", &second("-h"), &["--names", "--", "bytes", "-h"]);
    let values = [
        ("--only", "parts with commas between"),
        ("--until", "a tick"),
        ("--step", "a wanted step"),
        ("--sheet", "three parts with commas between"),
    ];
    for (option, what) in values {
        let why = format!("{option}: {what} must follow it");
        misused(&root, &format!("bad usage, --names {option}"), &why, &["--names", option]);
    }
    let why = "--sheet: three parts with commas between must follow it";
    misused(&root, "no numbers", why, &["--sheet"]);
    misused(&root, "that option behind FILE", why, &["bytes", "--sheet"]);
}

#[test]
fn saving_has_a_file_and_an_out() {
    let root = Root::new("misused-save");
    root.write("chime.table", "");
    let wanted = "--save: one FILE and one OUT are wanted";
    misused(&root, "neither FILE nor OUT", wanted, &["--save"]);
    misused(&root, "no OUT", wanted, &["--save", "bytes"]);
    misused(&root, "three arguments behind the option", wanted, &["--save", "bytes", "new", "new"]);
    misused(&root, "bad usage, --save", wanted, &["--save"]);
    misused(&root, "bad usage, --save chime.table", wanted, &["--save", "chime.table"]);
    misused(&root, "bad usage, --save chime.table new new", wanted, &["--save", "chime.table", "new", "new"]);
    let before = "--save comes before FILE and OUT";
    misused(&root, "the option behind FILE", before, &["bytes", "--save", "new"]);
    misused(&root, "bad usage, chime.table --save new", before, &["chime.table", "--save", "new"]);
    for words in [
        "--names --save bytes new",
        "--save --names bytes new",
        "--hex --table --save bytes new",
        "--save --save bytes new",
        "--save --sheet 0,1,2 bytes new",
        "--save --explain bytes new",
        "--hex --hex --save bytes new",
    ] {
        let arguments: Vec<&str> = words.split(' ').collect();
        misused(&root, &format!("bad usage, {words}"), "--save goes with --hex or --table alone", &arguments);
    }
    assert_eq!(root.read("new"), None, "bad usage made a file");
}

#[test]
fn no_such_option() {
    let root = Root::new("no-option");
    for word in ["--nothing", "--Hex", "--sheet=0,1,2", "--save=x", "--help=all", "---"] {
        let why = format!("{word}: no such option");
        let calls: [&[&str]; 5] =
            [&[word], &[word, "bytes"], &["bytes", word], &["--names", word, "bytes"], &["--save", word, "new"]];
        calls.iter().for_each(|words| misused(&root, &format!("no such option, {}", words.join(" ")), &why, words));
    }
    assert_eq!(root.read("new"), None, "bad usage made a file");
    use std::os::unix::ffi::OsStrExt;
    let name = "no such option, of other bytes";
    root.expect(
        name,
        &[std::ffi::OsStr::from_bytes(b"--\xff")],
        2,
        "",
        "rehearse: --\u{fffd}: no such option\nusage: *",
    );
}

/// What the command over the proved calls told once it was built is told before.
#[test]
fn options_that_do_not_go_together_are_told_before_anything_is_built() {
    let root = Root::new("clash");
    root.calls("echo it was called");
    let clashes = [
        ("--hex --table", "--hex and --table: the input has one form"),
        ("--sheet 0,1,2 --sheet 0,1,2", "--only and --sheet: one of them, once"),
        ("--only a --sheet 0,1,2", "--only and --sheet: one of them, once"),
        ("--until 6000", "--until T and --step S go together"),
        ("--step 100", "--until T and --step S go together"),
        ("--until 1 --until 2 --step 1", "--until is given twice"),
        ("--until 4 --step 0", "--step 0: out of range, 1 to 1000000000"),
        ("--explain --text", "--explain, --text and --save: one of them"),
        ("--text --until 4 --step 1", "--until is for a rehearsal: a text table has lines until TICK step STEP"),
        (
            "--names --only a --until 9 --step 2 --strict --hex --explain",
            "--names, --only and --sheet are for a rehearsal's lines",
        ),
    ];
    clashes.iter().for_each(|(options, why)| clashing(&root, options, why));
}

/// Sees that options clash, whatever the file.
fn clashing(root: &Root, options: &str, why: &str) {
    for file in ["", "-", "bytes", "two words.hex", "chime.table"] {
        let arguments: Vec<&str> = options.split(' ').chain([file]).filter(|word| !word.is_empty()).collect();
        let name = format!("{options} {}", if file.is_empty() { "without FILE" } else { file });
        root.expect(&name, &arguments, 2, "", &format!("rehearse: {why} (./rehearse --help)"));
    }
}

#[test]
fn the_version() {
    let root = Root::new("version");
    let version = concat!("rehearse ", env!("CARGO_PKG_VERSION"), "\n");
    for words in ["--version", "--version bytes", "--names --version", "--hex nothing-here --version --bad"] {
        let arguments: Vec<&str> = words.split(' ').collect();
        root.expect(&format!("the version, {words}"), &arguments, 0, version, "");
    }
}

#[test]
fn help() {
    let root = Root::new("help");
    let help = started(&mut root.command(&["--help"])).wait_with_output().expect("its answer");
    let text = String::from_utf8(help.stdout).expect("text");
    assert!(text.starts_with("usage: rehearse [OPTIONS] [FILE]") && help.stderr.is_empty());
    let told =
        "--explain --help --hex --names --only --save --sheet --step --strict --table --text --until --version -h";
    told.split(' ').for_each(|option| assert!(text.contains(option), "help does not tell {option}"));
    (0..=5).for_each(|status| assert!(text.contains(&format!("{status}: ")), "help does not tell status {status}"));
    println!("case: help");
    for words in ["-h", "--help bytes", "--names -h", "nothing-here -h", "--only a --help --bad", "--hex --table -h"] {
        let arguments: Vec<&str> = words.split(' ').collect();
        root.expect(&format!("help, {words}"), &arguments, 0, &text, "");
    }
    let usage = text.split("Status").next().expect("the usage").trim_end();
    let told = format!("rehearse: --nothing: no such option\n{usage}");
    root.expect("the usage is the same", &["--nothing"], 2, "", &told);
}

#[test]
fn help_that_cannot_be_written() {
    let root = Root::new("unwritten");
    for option in ["--help", "--version"] {
        let full = File::options().write(true).open("/dev/full").expect("a device");
        let unwritten = "rehearse: not all lines could be written";
        root.answers(&format!("{option} onto a full device"), root.command(&[option]).stdout(full), 3, "", unwritten);
    }
}
