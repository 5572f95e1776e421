//! Inputs and outputs that no text can show: bytes that are no text, streams that are too long, readers that go away, a
//! full device.
use std::fs::{self, File};
use std::io::{Read, Seek, SeekFrom, Write};
use std::path::PathBuf;
use std::process::{Command, Output, Stdio};

/// A constant of 3, and a score that wants 7 so many times.
fn stream(wants: usize) -> Vec<u8> {
    let mut bytes = vec![1, 0, 2, 0, 255, 3, 0, 0, 0, 0, 0, 0, 0, 0, 0, 0, 0, 5];
    bytes.extend([6, 7, 0, 0, 0].repeat(wants));
    bytes
}

fn command(arguments: &[&str]) -> Command {
    let mut command = Command::new(env!("CARGO_BIN_EXE_rehearse-front"));
    command.args(arguments).stdin(Stdio::null()).stdout(Stdio::piped()).stderr(Stdio::piped());
    command
}

/// A file with these bytes.
fn file(name: &str, bytes: &[u8]) -> String {
    let path = PathBuf::from(env!("CARGO_TARGET_TMPDIR")).join(name);
    fs::write(&path, bytes).expect("a file");
    path.to_str().expect("a name").to_string()
}

fn told(output: &Output) -> String {
    String::from_utf8_lossy(&output.stderr).into_owned()
}

/// Feeds bytes by a pipe.
fn piped(arguments: &[&str], bytes: &[u8]) -> Output {
    let mut child = command(arguments).stdin(Stdio::piped()).spawn().expect("the command");
    let mut input = child.stdin.take().expect("its input");
    let _ = input.write_all(bytes);
    drop(input);
    child.wait_with_output().expect("its answer")
}

#[test]
fn what_is_not_read_of_a_file_is_told() {
    // 18 bytes and 13,103 commands of five are 65,533; the next is cut by the limit.
    let name = file("long", &stream(14_000));
    let output = command(&["--names", &name]).output().expect("its answer");
    assert_eq!(output.status.code(), Some(0));
    let lines = String::from_utf8(output.stdout.clone()).expect("text");
    assert_eq!(lines.lines().count(), 1 + 13_103 + 1);
    assert_eq!(lines.lines().last(), Some("refused 1 at 65533"));
    let unread = format!("rehearse: {name}: 4482 bytes after the first 65536 were not read\n");
    assert!(told(&output).ends_with(&unread), "{}", told(&output));
}

#[test]
fn what_is_not_read_of_standard_input_is_told() {
    let output = piped(&["--names"], &stream(14_000));
    let unread = "rehearse: standard input: 4482 bytes after the first 65536 were not read\n";
    assert!(told(&output).ends_with(unread), "{}", told(&output));
    let name = file("redirected", &stream(14_000));
    let redirected = command(&["--names"]).stdin(File::open(name).expect("a file")).output().expect("its answer");
    assert_eq!(told(&redirected), told(&output));
    let spelled: String = stream(14_000).iter().map(|byte| format!("{byte:02x}\n")).collect();
    let hexadecimal = piped(&["--names", "--hex"], spelled.as_bytes());
    assert_eq!(hexadecimal.stdout, output.stdout);
    assert!(told(&hexadecimal).ends_with(unread), "{}", told(&hexadecimal));
}

#[test]
fn standard_input_is_read_from_where_it_stands() {
    let bytes = [vec![9; 100], stream(14_000)].concat();
    let mut opened = File::open(file("begun", &bytes)).expect("a file");
    opened.seek(SeekFrom::Start(100)).expect("a place");
    let output = command(&["--names"]).stdin(opened).output().expect("its answer");
    assert_eq!(output.stdout, piped(&["--names"], &stream(14_000)).stdout);
    let unread = "rehearse: standard input: 4482 bytes after the first 65536 were not read\n";
    assert!(told(&output).ends_with(unread), "{}", told(&output));
}

#[test]
fn a_stream_of_65536_bytes_is_read_whole() {
    let mut bytes = stream(13_103);
    bytes.extend([6, 7, 0]);
    assert_eq!(bytes.len(), 65_536);
    let output = piped(&["--only", "0"], &bytes);
    assert_eq!((output.status.code(), output.stdout.ends_with(b"\nrefused 1 at 65533\n")), (Some(0), true));
    let why = "refused 1 at 65533: the 65536 bytes that are read end inside the wanted step";
    assert_eq!(told(&output), format!("standard input: {why}\n"));
}

#[test]
fn lines_and_messages_come_in_their_order() {
    let name = file("order.table", b"part x constant a=3\nwant 7\nwant 0\nwant 1\n");
    let (out, err) = (file("order.out", b""), format!("{name}:3: refused 20: a wanted step is 1 to 1000000000, not 0"));
    let both = File::options().append(true).open(&out).expect("a file");
    let again = both.try_clone().expect("the file again");
    command(&[&name]).stdout(both).stderr(again).status().expect("its end");
    let lines = fs::read_to_string(out).expect("the lines");
    assert_eq!(lines, format!("7 0 7 1 0 3\nrefused 20\n{err}\n8 0 1 1 0 3\n"));
}

#[test]
fn many_spans_and_faults_take_no_time() {
    let spans = file("spans.table", format!("part d drive spans={}\n", vec!["1"; 500_000].join(",")).as_bytes());
    assert!(told(&command(&[&spans]).output().expect("its answer")).contains("refused 12: 1, span 2 of d"));
    let faults = file("faults.table", format!("wire a -> a.0\n{}part a gain\n", "x\n".repeat(1 << 20)).as_bytes());
    let answer = told(&command(&[&faults]).output().expect("its answer"));
    assert_eq!((answer.lines().count(), answer.contains("no part has this name")), (21, false));
}

#[test]
fn a_pipe_that_stays_open_ends() {
    let mut child = command(&["--names"]).stdin(Stdio::piped()).stdout(Stdio::null()).spawn().expect("the command");
    let mut input = child.stdin.take().expect("its input");
    input.write_all(&stream(14_000)).expect("its input");
    let mut errors = String::new();
    child.stderr.take().expect("its errors").read_to_string(&mut errors).expect("its errors");
    drop(input);
    let unread = "rehearse: standard input: at least 4482 bytes after the first 65536 were not read\n";
    assert!(errors.ends_with(unread), "{errors}");
    child.wait().expect("its end");
}

#[test]
fn an_endless_input_ends() {
    let zeros = File::open("/dev/zero").expect("a device");
    let output = command(&["--names"]).stdin(zeros).output().expect("its answer");
    assert_eq!(output.stdout, b"refused 2 at 0\n");
    let text = command(&["--table"]).stdin(File::open("/dev/zero").expect("a device")).output().expect("its answer");
    assert_eq!(text.status.code(), Some(2));
    let longer = "rehearse: standard input: it is longer than 16777216 bytes, the most that is read of a text\n";
    assert_eq!(told(&text), longer);
}

#[test]
fn bytes_that_are_no_text_are_told_by_their_line() {
    let name = file("latin.table", b"# caf\xE9\npart caf\xE9 constant\npart b constant # \xFF\n");
    let output = command(&[&name]).output().expect("its answer");
    assert_eq!(output.status.code(), Some(2));
    assert_eq!(told(&output), format!("{name}:2: this is not UTF-8 text\n"));
}

#[test]
fn parts_that_no_wire_can_name_are_told() {
    let parts: String = (0..257).map(|part| format!("part p{part} constant\n")).collect();
    let name = file("many.table", parts.as_bytes());
    let output = command(&[&name]).output().expect("its answer");
    assert_eq!(output.status.code(), Some(2));
    let why = "part p256: no wire can name more than 256 parts, and a table has at most 32";
    assert_eq!(told(&output), format!("{name}:257: {why}\n"));
}

#[test]
fn a_long_score_of_a_text_is_played_whole() {
    let name = file("long.table", b"part x constant a=3\nwant 7 x20000\nuntil 200000 step 1\n");
    let output = command(&["--only", "x", &name]).output().expect("its answer");
    assert_eq!(output.status.code(), Some(0));
    let lines = String::from_utf8(output.stdout).expect("text");
    assert_eq!((lines.lines().count(), lines.lines().last()), (80_000, Some("200000 0 1 1 0 3")));
}

#[test]
fn lines_that_cannot_be_written_are_told() {
    let name = file("written.table", b"part x constant a=3\nwant 7\n");
    for arguments in [&[name.as_str()][..], &["--text", &name], &["--explain", &name]] {
        let full = File::options().write(true).open("/dev/full").expect("a device");
        let output = command(arguments).stdout(full).output().expect("its answer");
        assert_eq!(output.status.code(), Some(3), "{arguments:?}");
        assert_eq!(told(&output), "rehearse: not all lines could be written\n");
    }
    let full = File::options().write(true).open("/dev/full").expect("a device");
    let output = command(&["--save", &name, "-"]).stdout(full).output().expect("its answer");
    assert_eq!(output.status.code(), Some(3));
    assert_eq!(told(&output), "rehearse: -: not all bytes could be written\n");
}

#[test]
fn a_reader_that_goes_ends_the_rehearsal() {
    let name = file("endless.table", b"part x constant a=3\nuntil 1000000000000000000 step 1\n");
    let mut child = command(&[&name]).spawn().expect("the command");
    let mut first = [0; 12];
    child.stdout.take().expect("its lines").read_exact(&mut first).expect("its lines");
    assert_eq!(child.wait().expect("its end").code(), Some(141));
    assert_eq!(&first, b"1 0 1 1 0 3\n");
}

#[test]
fn what_is_saved_is_the_table_alone() {
    let name = file("saved.table", b"want 7 x3\npart x constant a=3\nuntil 9 step 1\n");
    let output = command(&["--save", &name, "-"]).output().expect("its answer");
    assert_eq!((output.status.code(), output.stdout), (Some(0), stream(0)));
}
