//! Saving a table by the proved program, or a text table by the proved calls: OUT is whole, or as it was.
use crate::root::{Root, BYTES, INPUT, SPELLED, TEXT};
use front::home::Program;

/// What the stand-in writes for some bytes.
fn saved(bytes: &[u8]) -> Vec<u8> {
    [b"\x01\x07", bytes].concat()
}

/// Bytes as a file named .hex has them.
fn spelled(bytes: &[u8]) -> String {
    let row = |row: &[u8]| row.iter().map(|byte| format!("{byte:02x}")).collect::<Vec<_>>().join(" ") + "\n";
    bytes.chunks(16).map(row).collect()
}

/// Sees that no OUT is made, and that one that was there is kept.
fn keeps(root: &Root, name: &str, file: &str, status: i32, err: &str) {
    for (out, kept) in [("new", None), ("new.hex", None), ("kept", Some("old")), ("kept.hex", Some("old"))] {
        if let Some(old) = kept {
            root.write(out, old);
        }
        let over = if kept.is_some() { ", over a file" } else { "" };
        let form = if out.ends_with(".hex") { ", hexadecimal" } else { "" };
        root.saves(&format!("{name}{over}{form}"), (file, out), status, kept.map(str::as_bytes), err);
    }
}

#[test]
fn into_files() {
    let root = Root::new("saving");
    let table = saved(BYTES);
    root.saves("a table", ("bytes", "out"), 0, Some(&table), "");
    root.write("out", "longer than the table that takes its place");
    root.saves("a table over a longer file", ("bytes", "out"), 0, Some(&table), "");
    let (whole, path) = (root.here("bytes"), root.here("whole"));
    let paths = (whole.to_str().expect("a name"), path.to_str().expect("a name"));
    root.saves("a table by whole paths", paths, 0, Some(&table), "");
    root.write("-x.hex", TEXT);
    let name = "names that begin with a dash and have blanks";
    root.saves(name, ("-x.hex", "-o u t"), 0, Some(&saved(SPELLED)), "");
    root.saves("into the file itself", ("out", "out"), 0, Some(&saved(&table)), "");
    root.saves("a table of standard input", ("-", "out"), 0, Some(&saved(INPUT)), "");
    root.write("--table", BYTES);
    let name = "a table behind the end of the options";
    root.expect(name, &["--save", "--", "--table", "--out"], 0, "", "");
    assert_eq!(root.read("--out"), Some(table), "{name}");
    root.write("two words.HEX", TEXT);
    let name = "a table by capitals, from and to";
    root.saves(name, ("two words.HEX", "saved.HEX"), 0, Some(spelled(&saved(SPELLED)).as_bytes()), "");
}

#[test]
fn in_hexadecimal() {
    let root = Root::new("saving-hex");
    let every: Vec<u8> = (0..=255).collect();
    root.write("every", &every);
    let rows = spelled(&saved(&every));
    assert_eq!(rows.lines().next(), Some("01 07 00 01 02 03 04 05 06 07 08 09 0a 0b 0c 0d"));
    root.saves("hexadecimal, 16 bytes a line", ("every", "saved.hex"), 0, Some(rows.as_bytes()), "");
    root.program(Program::SaveTable, "cat");
    let name = "hexadecimal that was saved is read, into the file itself";
    root.saves(name, ("saved.hex", "saved.hex"), 0, Some(rows.as_bytes()), "");
    let name = "hexadecimal that was saved is read, into bytes";
    root.saves(name, ("saved.hex", "saved"), 0, Some(&saved(&every)), "");
}

#[test]
fn with_permissions() {
    let root = Root::new("saving-mode");
    let script = |rest: &str| root.shell(&format!("umask 027; \"$0\" --save bytes masked && {rest}"));
    root.answers("permissions by the umask", &mut script("stat -c %a masked && chmod 604 masked"), 0, "640\n", "");
    root.answers("permissions of the file before", &mut script("stat -c %a masked"), 0, "604\n", "");
}

#[test]
fn a_refused_load_saves_nothing() {
    let root = Root::new("saving-refused");
    let told = "rehearse: bytes: refused 5 at 17: no table is saved";
    root.program(Program::SaveTable, "echo refused 5 at 17 >&2");
    keeps(&root, "a refused load", "bytes", 4, told);
    root.saves("a refused load of the file itself", ("bytes", "bytes"), 4, Some(BYTES), told);
    root.expect("a refused load onto standard output", &["--save", "bytes", "/dev/stdout"], 4, "", told);
}

#[test]
fn a_program_that_fails_saves_nothing() {
    let root = Root::new("saving-failed");
    let unsaved = "rehearse: bytes: no table is saved";
    let ended = |status: u8| {
        format!("rehearse: bytes: {} ended with status {status}: no table is saved", Program::SaveTable.path())
    };
    let unwritten = "savetable: not all bytes could be written";
    let cases = [
        ("a write that fails", format!("printf x; echo {unwritten} >&2"), format!("{unwritten}\n{unsaved}")),
        (
            "a refusal and more",
            "echo refused 5 at 17 >&2; echo and more >&2".into(),
            format!("refused 5 at 17\nand more\n{unsaved}"),
        ),
        ("a program that fails", "printf x; exit 7".into(), ended(7)),
        ("a program that is ended", "printf x; kill -KILL $$".into(), ended(137)),
        ("a program that writes nothing", ":".into(), unsaved.into()),
    ];
    for (name, script, told) in cases {
        root.program(Program::SaveTable, &script);
        keeps(&root, name, "bytes", 3, &told);
    }
}

#[test]
fn a_bad_file_saves_nothing() {
    let root = Root::new("saving-bad");
    root.saves("saving no such file", ("nothing-here", "new"), 2, None, "rehearse: nothing-here: no such file");
    root.saves("saving a directory", (".", "new"), 2, None, "rehearse: .: it is a directory");
    let name = "no such text table is saved";
    root.saves(name, ("nothing-here.table", "new"), 2, None, "rehearse: nothing-here.table: no such file");
}

/// A text table, and its table's bytes.
const CHIME: &str = "part x constant a=3\nwant 7\n";
const CHIMED: &[u8] = b"\x01\x00\x02\x00\xff\x03\x00\x00\x00\x00\x00\x00\x00\x00\x00\x00\x00\x05";

/// A repository with the command over the proved calls itself.
fn with_calls(name: &str) -> Root {
    let root = Root::new(name);
    root.link("rehearse-front", env!("CARGO_BIN_EXE_rehearse-front"));
    for file in ["chime.table", "CHIME.TABLE", "two words.table", "-x.table", "--x.table", "text"] {
        root.write(file, CHIME);
    }
    root
}

#[test]
fn a_text_table() {
    let root = with_calls("saving-text");
    root.saves("a text table is saved", ("chime.table", "out"), 0, Some(CHIMED), "");
    root.saves("a text table by capitals is saved", ("CHIME.TABLE", "out1"), 0, Some(CHIMED), "");
    root.saves("a text table with blanks in its name is saved", ("two words.table", "o u t"), 0, Some(CHIMED), "");
    root.saves("a text table with a dash in its name is saved", ("-x.table", "out2"), 0, Some(CHIMED), "");
    let rows = spelled(CHIMED);
    root.saves("a text table is saved in hexadecimal", ("chime.table", "saved.hex"), 0, Some(rows.as_bytes()), "");
    let name = "a text table is saved onto standard output";
    root.expect(name, &["--save", "chime.table", "/dev/stdout"], 0, CHIMED, "");
    let name = "a text table behind the end of the options is saved";
    root.expect(name, &["--save", "--", "--x.table", "-"], 0, CHIMED, "");
    root.write("text.hex", CHIME);
    let tried = |form: [&str; 2], file: &str| {
        let name = format!("a text table is saved by the option, {} {file}", form.join(" "));
        let mut command = root.command(&[form[0], form[1], file, "-"]);
        root.answers(&name, command.stdin(root.input("text")), 0, CHIMED, "");
    };
    for form in [["--table", "--save"], ["--save", "--table"]] {
        ["-", "text", "text.hex"].iter().for_each(|file| tried(form, file));
    }
}

#[test]
fn a_text_table_that_is_not_saved() {
    let root = with_calls("unsaved-text");
    root.write("chime.table", "part x gain\nwire x -> x.0\n");
    let refused = "chime.table:2: refused 11: *: no table is saved";
    keeps(&root, "a text table whose load is refused", "chime.table", 4, refused);
    root.write("chime.table", "part x nothing\n");
    let unread = "chime.table:1: nothing: no such kind; *\nrehearse: chime.table: no table is saved";
    keeps(&root, "a text table that cannot be read", "chime.table", 2, unread);
    let name = "a text table that cannot be read, on standard input";
    let unread = "standard input:1: this is not UTF-8 text\nrehearse: standard input: no table is saved";
    root.write("latin", b"\xff");
    let mut command = root.command(&["--table", "--save", "-", "new"]);
    root.answers(name, command.stdin(root.input("latin")), 2, "", unread);
    root.write("chime.table", CHIME);
    root.saves("a text table into a directory", ("chime.table", "."), 3, None, "rehearse: .: it is a directory");
}

/// What the stand-in for the command over the proved calls ends with is the status, and OUT is its own business.
#[test]
fn a_command_that_fails() {
    let root = Root::new("unsaved-calls");
    root.write("chime.table", CHIME);
    for status in [1, 3, 5, 101] {
        root.calls(&format!("exit {status}"));
        keeps(&root, &format!("a command that fails with {status}"), "chime.table", status, "");
    }
    root.calls("shift; printf '%s,' \"$@\" >&2");
    keeps(&root, "a command that writes nothing", "chime.table", 0, "chime.table,*");
}
