//! Where a saved table goes: links, pipes, open files, and places where nothing can be put.
use crate::root::{started, Root, TEXT};
use front::home::Program;
use std::fs::{self, File};
use std::os::unix::fs::symlink;
use std::time::Duration;

/// What the stand-in writes for the file of bytes.
const SAVED: &[u8] = b"\x01\x07\x02\x00\x23\x0a\x30";

#[test]
fn links_stay_and_lead_to_what_was_saved() {
    let root = Root::new("links");
    root.write("target", "old");
    symlink("target", root.here("link")).expect("a link");
    symlink(root.here("made"), root.here("nowhere")).expect("a link");
    symlink("ring", root.here("ring")).expect("a link");
    symlink("no/folder/x", root.here("lost")).expect("a link");
    root.saves("into a link", ("bytes", "link"), 0, Some(SAVED), "");
    root.saves("into a link to no file", ("bytes", "nowhere"), 0, Some(SAVED), "");
    assert_eq!(fs::read_link(root.here("link")).expect("a link").as_os_str(), "target");
    assert_eq!(fs::read_link(root.here("nowhere")).expect("a link"), root.here("made"));
    assert_eq!((root.read("target").as_deref(), root.read("made").as_deref()), (Some(SAVED), Some(SAVED)));
    println!("case: both links are there");
    root.saves("into a link to itself", ("bytes", "ring"), 3, None, "rehearse: ring: the link leads nowhere");
    root.saves("into a link to no folder", ("bytes", "lost"), 3, None, "rehearse: lost: the link leads nowhere");
}

#[test]
fn what_is_no_regular_file_is_written_to_as_it_is() {
    let root = Root::new("pipes");
    let read = "{ timeout 10 cat \"$1\" & } && \"$0\" --save bytes \"$1\" && wait $! && [ -p \"$1\" ]";
    for (name, pipe, shown) in
        [("into a pipe", "pipe", SAVED), ("hexadecimal into a pipe", "pipe.hex", b"01 07 02 00 23 0a 30\n")]
    {
        root.answers(name, root.shell(&format!("mkfifo \"$1\" && {read}")).arg(pipe), 0, shown, "");
    }
    root.program(Program::SaveTable, "head -c 300000 /dev/zero");
    let gone = "timeout 10 head -c 1 pipe >/dev/null & \"$0\" --save bytes pipe";
    let told = "rehearse: pipe: not all bytes could be written";
    root.answers("into a pipe whose reader goes", &mut root.shell(gone), 3, "", told);
}

#[test]
fn open_files_are_written_from_where_they_are() {
    let root = Root::new("opened");
    for out in ["/dev/stdout", "-"] {
        let both = File::create(root.here("printed")).expect("a file");
        let name = format!("onto standard output, a file, by {out}");
        root.answers(&name, root.command(&["--save", "bytes", out]).stdout(both), 0, "", "");
        assert_eq!(root.read("printed").as_deref(), Some(SAVED), "{name}");
    }
    assert_eq!(root.read("-"), None, "a file was made that is named -");
    root.expect("onto standard output, a pipe", &["--save", "bytes", "/dev/stdout"], 0, SAVED, "");
    root.program(Program::SaveTable, "echo table");
    let script =
        "{ echo before && \"$0\" --save bytes /dev/stdout && \"$0\" --save bytes /dev/fd/7 && echo behind; } >all 7>&1";
    root.answers("onto open files, between what others write", &mut root.shell(script), 0, "", "");
    assert_eq!(root.read("all").as_deref(), Some(&b"before\ntable\ntable\nbehind\n"[..]));
    root.expect("onto standard error", &["--save", "bytes", "/dev/stderr"], 0, "", "table");
    let unwritten = "not all bytes could be written";
    let told = format!("rehearse: /dev/fd/9: {unwritten}");
    root.expect("onto a file that is not open", &["--save", "bytes", "/dev/fd/9"], 3, "", &told);
    let told = format!("rehearse: /dev/fd/1x: {unwritten}");
    root.expect("onto what is no number of a file", &["--save", "bytes", "/dev/fd/1x"], 3, "", &told);
    let full = File::options().write(true).open("/dev/full").expect("a device");
    let told = format!("rehearse: /dev/stdout: {unwritten}");
    root.answers("onto a full device", root.command(&["--save", "bytes", "/dev/stdout"]).stdout(full), 3, "", &told);
}

#[test]
fn where_nothing_can_be_put() {
    let root = Root::new("nowhere");
    fs::create_dir(root.here("folder")).expect("a folder");
    symlink("folder", root.here("directory")).expect("a link");
    let cases = [
        ("into a directory", ".", "it is a directory"),
        ("into a link to a directory", "directory", "it is a directory"),
        ("into no folder", "no/folder/out", "its folder is not there"),
        ("behind a file", "bytes/out", "its folder is not there"),
        ("a name with a slash at its end", "slash/", "it names no file"),
        ("an empty name", "", "it names no file"),
        ("into a folder that takes no file", "/proc/out", "*: no table is saved"),
    ];
    for (name, out, why) in cases {
        root.saves(name, ("bytes", out), 3, None, &format!("rehearse: {out}: {why}"));
    }
}

/// What only those can be refused who are not root.
#[test]
fn where_nothing_may_be_put() {
    let root = Root::new("locked");
    let made = "mkdir locked && printf old >locked/kept && printf old >kept && chmod 400 kept && chmod 500 locked";
    root.answers("a folder is closed to its owner", &mut root.shell(made), 0, "", "");
    if File::options().write(true).open(root.here("kept")).is_err() {
        let locked = |out: &str| format!("rehearse: {out}: its folder cannot be written");
        root.saves("into a folder without permission", ("bytes", "locked/out"), 3, None, &locked("locked/out"));
        let name = "over a file in such a folder";
        root.saves(name, ("bytes", "locked/kept"), 3, Some(b"old"), &locked("locked/kept"));
        let name = "over a file without permission";
        root.saves(name, ("bytes", "kept"), 3, Some(b"old"), "rehearse: kept: it cannot be written");
    }
    root.answers("a folder is opened to its owner", &mut root.shell("chmod 700 locked"), 0, "", "");
}

#[test]
fn an_out_that_would_be_read_as_text() {
    let root = Root::new("texts");
    root.write("chime.table", "");
    root.write("two words.hex", TEXT);
    let tried = |file: &str, out: &str| {
        let told = format!("rehearse: {out}: it would be read as text, *");
        root.expect(&format!("{file} into {out}"), &["--save", file, out], 2, "", &told);
    };
    for file in ["bytes", "two words.hex", "chime.table"] {
        ["new.table", "new.TABLE", "chime.table"].iter().for_each(|out| tried(file, out));
    }
    assert_eq!((root.read("new.table"), root.read("new.TABLE"), root.read("chime.table")), (None, None, Some(vec![])));
}

/// A limit of the size of files is in place of a full disk: half of the bytes are written.
#[test]
fn a_file_that_cannot_be_written_whole_is_not_put_in_place() {
    let root = Root::new("half");
    root.write("table", vec![b'x'; 100_000]);
    root.program(Program::SaveTable, &format!("exec cat '{}'", root.here("table").display()));
    for (name, out, kept) in [
        ("half of the bytes", "new", None),
        ("half of the bytes, hexadecimal", "new.hex", None),
        ("half of the bytes, over a file", "kept", Some("old")),
        ("half of the bytes, over a file, hexadecimal", "kept.hex", Some("old")),
    ] {
        kept.iter().for_each(|old| root.write(out, old));
        let told = format!("rehearse: {out}: not all bytes could be written: no table is saved");
        let mut command = root.shell("trap '' XFSZ; ulimit -f 50; \"$0\" --save bytes \"$1\"");
        root.answers(name, command.arg(out), 3, "", &told);
        assert_eq!(root.read(out).as_deref(), kept.map(str::as_bytes), "{name}");
        assert_eq!(root.hidden(), Vec::<String>::new(), "{name}");
    }
    let mut command = root.shell("ulimit -f 50; \"$0\" --save bytes new; exit $?");
    root.answers("half of the bytes, ended by the limit", &mut command, 128 + 25, "", "*");
    assert_eq!((root.read("new"), root.hidden()), (None, Vec::new()));
}

/// Meanwhile OUT becomes a folder.
#[test]
fn a_file_that_cannot_be_replaced_is_told() {
    let root = Root::new("unreplaced");
    for (name, out) in [
        ("a file that cannot be replaced", "new"),
        ("a file that cannot be replaced, hexadecimal", "new.hex"),
        ("a file that cannot be replaced, over a file", "kept"),
        ("a file that cannot be replaced, over a file, hexadecimal", "kept.hex"),
    ] {
        if out.starts_with("kept") {
            root.write(out, "old");
        }
        let place = root.here(out).display().to_string();
        root.program(Program::SaveTable, &format!("rm -f '{place}'; mkdir '{place}'; echo table"));
        let told = format!("rehearse: {out}: it could not be replaced: no table is saved");
        root.saves(name, ("bytes", out), 3, None, &told);
    }
}

/// However soon a save is ended, nothing temporary is left, and OUT is the old file or the new one.
#[test]
fn a_save_that_is_ended_leaves_nothing() {
    let root = Root::new("ended");
    let new = "x".repeat(8 << 20);
    root.write("table", &new);
    root.program(Program::SaveTable, &format!("exec cat '{}'", root.here("table").display()));
    root.saves("a long table", ("bytes", "out"), 0, Some(new.as_bytes()), "");
    let mut ended = 0;
    for turn in 0..120 {
        root.write("out", "old");
        let signal = ["HUP", "INT", "TERM"][turn % 3];
        let mut child = started(&mut root.command(&["--save", "bytes", "out"]));
        std::thread::sleep(Duration::from_micros(150 * turn as u64));
        let kill = format!("kill -{signal} {}", child.id());
        started(&mut root.shell(&kill)).wait().expect("its end");
        let status = child.wait().expect("its end");
        ended += usize::from(status.code().is_none());
        match root.read("out").as_deref() {
            Some(bytes) if bytes == b"old" || bytes == new.as_bytes() => {}
            other => panic!("turn {turn}: OUT has {:?} bytes", other.map(<[u8]>::len)),
        }
        assert_eq!(root.hidden(), Vec::<String>::new(), "turn {turn}");
    }
    assert!(ended > 0, "no save was ended");
}
