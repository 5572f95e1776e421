//! Of bytes the first 65,536 are read. How many come after them is told after the lines.
use crate::root::{started, Root};
use front::home::Program;
use std::fs::{self, File};
use std::io::{Seek, SeekFrom, Write};
use std::process::{Child, Command, Stdio};

/// What is told of bytes that were not read.
fn behind(name: &str, count: &str) -> String {
    format!("rehearse: {name}: {count} bytes after the first 65536 were not read")
}

/// A repository with programs that count what they read, and files of zeros.
fn counting(name: &str) -> Root {
    let root = Root::new(name);
    root.program(Program::Rehearse, "wc -c");
    root.program(Program::SaveTable, "wc -c");
    root.program(Program::PrintSheet, "wc -c");
    for (name, size) in [("long", 70_000), ("just", 65_536), ("above", 65_537)] {
        root.write(name, vec![0; size]);
        root.write(&format!("{name}.hex"), "00\n".repeat(size));
    }
    root
}

/// Feeds a command by a pipe that is open until all is written.
fn piped(command: &mut Command, bytes: usize) -> Child {
    let mut child = started(command.stdin(Stdio::piped()));
    let mut input = child.stdin.take().expect("its input");
    std::thread::spawn(move || input.write_all(&vec![0; bytes]));
    child
}

/// What a command by a pipe answers.
fn told(name: &str, child: Child, status: i32, out: &str, err: &str) {
    let answer = child.wait_with_output().expect("its answer");
    let texts = (String::from_utf8_lossy(&answer.stdout), String::from_utf8_lossy(&answer.stderr));
    assert_eq!((answer.status.code(), &*texts.0, texts.1.trim_end()), (Some(status), out, err), "{name}");
    println!("case: {name}");
}

#[test]
fn of_a_file() {
    let root = counting("limit-file");
    root.expect("a long file", &["long"], 0, "65536\n", &behind("long", "4464"));
    root.expect("a file of 65,536 bytes", &["just"], 0, "65536\n", "");
    root.expect("a file of one more", &["above"], 0, "65536\n", &behind("above", "1"));
    root.expect(
        "a sheet of more than 65,536 bytes",
        &["--sheet", "0,1,2", "long"],
        0,
        "65548\n",
        &behind("long", "4464"),
    );
    root.saves("saving a long file", ("long", "out"), 0, Some(b"65536\n"), &behind("long", "4464"));
    root.program(Program::SaveTable, "echo refused 2 at 0 >&2");
    let refused = format!("{}\nrehearse: long: refused 2 at 0: no table is saved", behind("long", "4464"));
    root.saves("saving a long file, refused", ("long", "new"), 4, None, &refused);
    root.program(Program::Rehearse, "wc -c; exit 7");
    root.expect("a long file and a status", &["long"], 7, "65536\n", &behind("long", "4464"));
}

#[test]
fn it_is_told_after_the_lines() {
    let root = counting("limit-order");
    let both = File::create(root.here("both")).expect("a file");
    let again = both.try_clone().expect("the file again");
    root.answers("it comes behind the lines", root.command(&["long"]).stdout(both).stderr(again), 0, "", "");
    let lines = fs::read_to_string(root.here("both")).expect("the lines");
    assert_eq!(lines, format!("65536\n{}\n", behind("long", "4464")));
}

#[test]
fn of_hexadecimal_text_by_its_digits() {
    let root = counting("limit-hex");
    root.expect("hexadecimal text of 65,536 bytes", &["just.hex"], 0, "65536\n", "");
    root.expect("hexadecimal text of one more", &["above.hex"], 0, "65536\n", &behind("above.hex", "1"));
    root.expect("more than 65,536 bytes", &["long.hex"], 0, "65536\n", &behind("long.hex", "4464"));
    let name = "a sheet of long hexadecimal text";
    root.expect(name, &["--sheet", "0,1,2", "long.hex"], 0, "65548\n", &behind("long.hex", "4464"));
    root.saves("saving long hexadecimal text", ("long.hex", "out"), 0, Some(b"65536\n"), &behind("long.hex", "4464"));
    let mut fed = root.command(&["--hex"]);
    fed.stdin(root.input("long.hex"));
    let unread = behind("standard input", "4464");
    root.answers("long hexadecimal text on standard input", &mut fed, 0, "65536\n", &unread);
    let mut piped = root.shell("cat long.hex | \"$0\" --hex");
    root.answers("long hexadecimal text in a pipe", &mut piped, 0, "65536\n", &unread);
}

#[test]
fn of_standard_input_from_where_it_is() {
    let root = counting("limit-input");
    let unread = behind("standard input", "4464");
    for (name, arguments, count, left) in [
        ("the rest of standard input is left by a rehearsal", vec![], "65536\n", 4464),
        ("the rest of standard input is left", vec!["--sheet", "0,1,2"], "65548\n", 4464),
        ("saving long standard input", vec!["--save", "-", "out"], "", 4464),
    ] {
        let mut file = File::open(root.here("long")).expect("a file");
        let mut command = root.command(&arguments);
        root.answers(name, command.stdin(file.try_clone().expect("the file")), 0, count, &unread);
        assert_eq!(70_000 - file.stream_position().expect("its place"), left, "{name}");
    }
    let mut begun = File::open(root.here("long")).expect("a file");
    begun.seek(SeekFrom::Start(4000)).expect("a place");
    let name = "standard input that was read before";
    root.answers(name, root.command(&["-"]).stdin(begun), 0, "65536\n", &behind("standard input", "464"));
    let mut last = File::open(root.here("long")).expect("a file");
    last.seek(SeekFrom::Start(65_536)).expect("a place");
    root.answers("standard input that has few bytes left", root.command::<&str>(&[]).stdin(last), 0, "4464\n", "");
}

#[test]
fn of_a_pipe_what_comes_in_time() {
    let root = counting("limit-pipe");
    let unread = behind("standard input", "4464");
    told("a long pipe", piped(&mut root.command::<&str>(&[]), 70_000), 0, "65536\n", &unread);
    told("a pipe of 65,536 bytes", piped(&mut root.command::<&str>(&[]), 65_536), 0, "65536\n", "");
    told("a sheet of a long pipe", piped(&mut root.command(&["--sheet", "0,1,2", "-"]), 70_000), 0, "65548\n", &unread);
    told("saving a long pipe", piped(&mut root.command(&["--save", "-", "out"]), 70_000), 0, "", &unread);
    let slow = behind("standard input", "4469");
    let mut command = root.shell("{ cat long && sleep 0.3 && echo more; } | \"$0\"");
    root.answers("a long pipe that is slow", &mut command, 0, "65536\n", &slow);
    root.answers("a long pipe by its name", &mut root.shell("\"$0\" <(cat long)"), 0, "65536\n", &behind("/*", "4464"));
    root.program(Program::Rehearse, "exit 7");
    told("a long pipe and a program that fails", piped(&mut root.command::<&str>(&[]), 70_000), 7, "", "");
}

#[test]
fn an_input_without_end_is_counted_for_a_while() {
    let root = counting("limit-endless");
    let least = behind("standard input", "at least *");
    let zeros = File::open("/dev/zero").expect("a device");
    root.answers("bytes without an end", root.command::<&str>(&[]).stdin(zeros), 0, "65536\n", &least);
    let most = behind("standard input", "at least 16777216");
    root.answers("a pipe without end", &mut root.shell("yes 2>/dev/null | \"$0\""), 0, "65536\n", &most);
    let open = "mkfifo open && exec 8<>open && { head -c 70000 /dev/zero >open 8>&- & } && ";
    let mut command = root.shell(&format!("{open} timeout 10 \"$0\" open 8>&-"));
    root.answers("a long pipe that stays open", &mut command, 0, "65536\n", &behind("open", "at least 4464"));
    let mut command = root.shell(&format!("rm open; {open} timeout 10 \"$0\" --sheet 0,1,2 <open 8>&-"));
    let unread = behind("standard input", "at least 4464");
    root.answers("a pipe that stays open", &mut command, 0, "65548\n", &unread);
}

#[test]
fn a_reader_that_goes_ends_the_program() {
    let root = counting("limit-reader");
    root.program(Program::Rehearse, "cat >/dev/null; exec yes");
    root.program(Program::PrintSheet, "exec yes");
    let mut command = root.shell("cat long | \"$0\" | head -n 1; exit ${PIPESTATUS[1]}");
    root.answers("a long pipe and a reader that goes", &mut command, 141, "y\n", &behind("standard input", "4464"));
    let mut command = root.shell("\"$0\" --sheet 0,1,2 bytes | head -n 1; exit ${PIPESTATUS[0]}");
    root.answers("a reader of a sheet that goes", &mut command, 141, "y\n", "");
    // Programs that go on, and then say that not all could be written.
    let deaf = "trap '' PIPE; cat >/dev/null; yes 2>/dev/null; echo not all lines could be written >&2";
    root.program(Program::Rehearse, deaf);
    root.program(Program::PrintSheet, deaf);
    let mut command = root.shell("\"$0\" bytes | head -n 1; exit ${PIPESTATUS[0]}");
    root.answers("a reader that goes, unheard", &mut command, 141, "y\n", "");
    let mut command = root.shell("\"$0\" --sheet 0,1,2 bytes | head -n 1; exit ${PIPESTATUS[0]}");
    root.answers("a reader of a sheet that goes, unheard", &mut command, 141, "y\n", "");
}
