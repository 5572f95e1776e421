//! What is handed on to the command over the proved calls, as it is.
use crate::root::{started, Root, INPUT};
use std::ffi::OsStr;
use std::os::unix::ffi::OsStrExt;

#[test]
fn text_tables() {
    let root = Root::new("tables");
    for file in ["chime.table", "CHIME.TABLE", "two words.table", "-x.table"] {
        root.write(file, "");
        root.hands_on(&format!("a text table, {file}"), &[file]);
    }
    root.hands_on("a sheet of numbers of a text table", &["--sheet", "0,1,2", "chime.table"]);
    root.hands_on("options behind FILE", &["chime.table", "--names", "--only", "a"]);
}

/// Sees that options are handed on with a file.
fn with_file(root: &Root, options: &str, file: &str) {
    let arguments: Vec<&str> = options.split(' ').chain([file]).filter(|word| !word.is_empty()).collect();
    let name = format!("{options} {}", if file.is_empty() { "without FILE" } else { file });
    root.hands_on(&name, &arguments);
}

#[test]
fn options() {
    let root = Root::new("handed");
    root.write("chime.table", "");
    for options in [
        "--names",
        "--strict",
        "--table",
        "--explain",
        "--text",
        "--only a,b",
        "--sheet a,b,c",
        "--sheet 0,1,c",
        "--until 9 --step 2",
        "--hex --names",
        "--hex --sheet 0,1,c",
        "--sheet 0,1,2 --strict",
        "--names --only a --until 9 --step 2 --strict --hex",
        "--until 9 --step 2 --strict --hex --explain",
    ] {
        ["", "-", "bytes", "two words.hex", "chime.table"].iter().for_each(|file| with_file(&root, options, file));
    }
}

#[test]
fn what_is_no_number_may_be_a_name() {
    let root = Root::new("names");
    let choices: [&[u8]; 18] = [
        b"0,x,2",
        b"x,1,2",
        b"0,1,2x",
        b" 0,1,2",
        b"0,1,2 ",
        b"0, 1,2",
        b"+0,1,2",
        b"0,-1,2",
        b"0x0,1,2",
        b"1e0,1,2",
        b"0.0,1,2",
        b"*,*,*",
        b"0,1,2\n",
        b"0,\n1,2",
        b"0,1,\xc2\xb2",
        b"0,1,\xd9\xa3",
        b"\xff,\xc3,1",
        b"struck,bell,clapper",
    ];
    for choice in choices {
        let name = format!("'{}' for three numbers", String::from_utf8_lossy(choice));
        root.hands_on(&name, &[OsStr::new("--sheet"), OsStr::from_bytes(choice), OsStr::new("bytes")]);
    }
}

#[test]
fn every_word_as_it_is() {
    let root = Root::new("words");
    root.write("two words.table", "");
    root.write("--table", "");
    root.hands_on("the end of the options", &["--names", "--", "--table"]);
    root.hands_on("the end of the options behind FILE", &["--names", "bytes", "--"]);
    root.hands_on("values that are like options", &["--only", "--names", "bytes"]);
    root.hands_on("a value that is like help", &["--only", "-h", "bytes"]);
    root.hands_on("a value that is like the end of the options", &["--only", "--", "--names", "bytes"]);
    let told =
        "rehearse: --until -h: a whole number in base ten is wanted, 0 to 1000000000000000000 (./rehearse --help)";
    root.expect("values of numbers that are like options", &["--until", "-h", "--step", "--", "bytes"], 2, "", told);
    root.hands_on("blanks, dashes and signs", &["--only", " a  *,-b,--c,\\d", "two words.table"]);
    root.hands_on("letters outside ASCII", &[OsStr::new("--only"), OsStr::from_bytes(b"\xc3\xa9,\xff")]);
}

#[test]
fn its_status_is_the_status() {
    let root = Root::new("handed-status");
    root.write("chime.table", "");
    for status in [0, 1, 2, 3, 4, 101, 141] {
        root.calls(&format!("echo a line; exit {status}"));
        root.expect(&format!("the command's status {status}"), &["chime.table"], status, "a line\n", "");
    }
    root.calls("kill -KILL $$");
    let mut command = root.shell("\"$0\" chime.table; exit $?");
    root.answers("a command that is ended", &mut command, 137, "", "*");
    root.calls("cat; ls /proc/self/fd | wc -l");
    let bare = started(&mut root.shell("ls /proc/self/fd | wc -l")).wait_with_output().expect("its answer").stdout;
    let name = "no files are open but those of the caller";
    root.expect(name, &["--names", "chime.table"], 0, [INPUT, &bare].concat(), "");
}

#[test]
fn what_can_be_told_without_it() {
    let root = Root::new("unhanded");
    root.expect("no such text table", &["nothing-here.table"], 2, "", "rehearse: nothing-here.table: no such file");
    let name = "no such file for the command";
    root.expect(name, &["--only", "a", "--names", "nothing-here"], 2, "", "rehearse: nothing-here: no such file");
    root.expect("a directory for the command", &["--explain", "."], 2, "", "rehearse: .: it is a directory");
}
