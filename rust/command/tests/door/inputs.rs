//! Files and standard input: which bytes the proved program is fed, and what is told of an input that cannot be read.
use crate::root::{Root, BYTES, INPUT, SPELLED, TEXT};
use front::home::Program;
use std::fs::{self, File};
use std::process::Stdio;

/// What is told of bytes that look like text.
const LOOKS: &str = "this looks like text: a text table is read with --table, hexadecimal text with --hex";

#[test]
fn bytes_are_fed_as_they_are() {
    let root = Root::new("bytes");
    root.expect::<&str>("standard input", &[], 0, INPUT, "");
    root.expect("a file of bytes, relative to the caller", &["bytes"], 0, BYTES, "");
    root.expect("a file of bytes, by its whole path", &[root.here("bytes")], 0, BYTES, "");
    root.write("empty", "");
    root.expect("an empty file of bytes", &["empty"], 0, "", "");
    root.write("-x.hex", TEXT);
    root.expect("a name that begins with a dash", &["-x.hex"], 0, SPELLED, "");
    root.answers("no bytes at all", root.command::<&str>(&[]).stdin(Stdio::null()), 0, "", "");
}

#[test]
fn the_program_has_its_status_and_its_words() {
    let root = Root::new("status");
    root.program(Program::Rehearse, "cat; exit 7");
    root.expect("the program's status", &["bytes"], 7, BYTES, "");
    root.program(Program::Rehearse, "cat; echo 'rehearse: a failed write' >&2");
    root.expect("what the program says on standard error", &["bytes"], 3, BYTES, "rehearse: a failed write");
    root.program(Program::Rehearse, "kill -KILL $$");
    root.expect("a program of a rehearsal that is ended", &["bytes"], 137, "", "");
}

#[test]
fn an_input_that_cannot_be_read_is_told() {
    let root = Root::new("unreadable");
    root.expect("no such file", &["nothing-here"], 2, "", "rehearse: nothing-here: no such file");
    root.expect("no such .hex file", &["nothing-here.hex"], 2, "", "rehearse: nothing-here.hex: no such file");
    root.expect("a file below a file", &["bytes/x"], 2, "", "rehearse: bytes/x: no such file");
    root.expect("an empty name of a file", &[""], 2, "", "rehearse: : no such file");
    root.expect("a directory", &["."], 2, "", "rehearse: .: it is a directory");
    fs::create_dir(root.here("directory.hex")).expect("a folder");
    root.expect("a directory named .hex", &["directory.hex"], 2, "", "rehearse: directory.hex: it is a directory");
    let folder = || Stdio::from(File::open(".").expect("a folder"));
    let unread = "rehearse: standard input: it cannot be read";
    root.answers("bytes that cannot be read", root.command::<&str>(&[]).stdin(folder()), 2, "", unread);
    let mut sheet = root.command(&["--sheet", "0,1,2"]);
    root.answers("a sheet of what cannot be read", sheet.stdin(folder()), 2, "", unread);
    let mut hex = root.command(&["--hex"]);
    root.answers("hexadecimal text that cannot be read", hex.stdin(folder()), 2, "", unread);
    root.expect("a name with control characters", &["a\x1b[31m"], 2, "", "rehearse: a\\u{1b}[31m: no such file");
}

/// What only those can be refused who are not root.
#[test]
fn an_input_without_permission_is_told() {
    let root = Root::new("permission");
    root.write("empty", "");
    root.answers("a file is closed to its owner", &mut root.shell("chmod 000 empty"), 0, "", "");
    if File::open(root.here("empty")).is_ok() {
        return;
    }
    root.expect("a file without permission", &["empty"], 2, "", "rehearse: empty: it cannot be read");
    let name = "a file without permission for the command";
    root.expect(name, &["--explain", "empty"], 2, "", "rehearse: empty: it cannot be read");
}

#[test]
fn bytes_that_begin_as_a_text_does_are_told() {
    let root = Root::new("looks");
    for text in ["part x constant", "01 00", "# 01", " 1", "\n1", "\t1", "~"] {
        root.write("a text", text);
        let (named, fed) = (format!("rehearse: a text: {LOOKS}"), format!("rehearse: standard input: {LOOKS}"));
        root.expect(&format!("a text that is named otherwise, '{text}'"), &["a text"], 0, text, &named);
        let mut command = root.command::<&str>(&[]);
        root.answers(
            &format!("a text on standard input, '{text}'"),
            command.stdin(root.input("a text")),
            0,
            text,
            &fed,
        );
    }
}

#[test]
fn bytes_that_begin_no_text_are_not() {
    let root = Root::new("looks-not");
    for byte in [0x00, 0x01, 0x06, 0x08, 0x1f, 0x7f, 0xff] {
        root.write("no text", [byte]);
        root.expect(&format!("a byte that begins no text, {byte:02x}"), &["no text"], 0, [byte], "");
    }
    root.write("mark", b"\xef\xbb\xbf01");
    let told = format!("rehearse: mark: {LOOKS}");
    root.expect("a byte-order mark in bytes", &["mark"], 0, b"\xef\xbb\xbf01", &told);
}
