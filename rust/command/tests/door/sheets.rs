//! Sheets by the proved program: the bytes of the parts that are chosen, and a part that is not there.
use crate::root::{Root, BYTES, INPUT, SPELLED, TEXT};
use front::home::Program;

/// The bytes of the parts 0, 1 and 2.
const CHOSEN: &[u8] = &[0, 0, 0, 0, 1, 0, 0, 0, 2, 0, 0, 0];

/// The bytes of three parts, and then others.
fn fed(chosen: &[u8], bytes: &[u8]) -> Vec<u8> {
    [chosen, bytes].concat()
}

#[test]
fn the_choice_comes_before_the_stream() {
    let root = Root::new("sheets");
    root.write("spelled", TEXT);
    root.write("-x.hex", TEXT);
    root.write("two words.HEX", TEXT);
    root.write("--table", BYTES);
    let (of_bytes, of_text, of_input) = (fed(CHOSEN, BYTES), fed(CHOSEN, SPELLED), fed(CHOSEN, INPUT));
    let cases: [(&str, &[&str], &[u8]); 11] = [
        ("a sheet of a file", &["--sheet", "0,1,2", "bytes"], &of_bytes),
        ("a sheet of hexadecimal text", &["--sheet", "0,1,2", "two words.hex"], &of_text),
        ("a sheet of hexadecimal text by capitals", &["--sheet", "0,1,2", "two words.HEX"], &of_text),
        ("a sheet of hexadecimal text under another name", &["--sheet", "0,1,2", "--hex", "spelled"], &of_text),
        ("the same, with the options in turn", &["--hex", "--sheet", "0,1,2", "spelled"], &of_text),
        ("a sheet of a name that begins with a dash", &["--sheet", "0,1,2", "-x.hex"], &of_text),
        ("a sheet of standard input", &["--sheet", "0,1,2"], &of_input),
        ("a sheet of standard input by a dash", &["--sheet", "0,1,2", "-"], &of_input),
        ("a sheet of an empty file", &["--sheet", "0,1,2", "/dev/null"], CHOSEN),
        ("a sheet behind the end of the options", &["--sheet", "0,1,2", "--", "--table"], &of_bytes),
        ("a sheet, with the option behind FILE", &["bytes", "--sheet", "0,1,2"], &of_bytes),
    ];
    for (name, arguments, shown) in cases {
        root.expect(name, arguments, 0, shown, "");
    }
}

#[test]
fn numbers_of_four_bytes() {
    let root = Root::new("numbers");
    let large = "4294967296,18446744073709551616,99999999999999999999999999";
    let cases: [(&str, &str, [u32; 3]); 3] = [
        ("leading zeros in base ten", "08,010,000", [8, 10, 0]),
        ("every byte of a number", "67305985,4294967295,1000000000", [0x0403_0201, u32::MAX, 1_000_000_000]),
        ("numbers that four bytes cannot hold", large, [u32::MAX; 3]),
    ];
    for (name, choice, numbers) in cases {
        let chosen = numbers.map(u32::to_le_bytes).concat();
        root.expect(name, &["--sheet", choice, "bytes"], 0, fed(&chosen, BYTES), "");
    }
}

#[test]
fn three_parts_are_wanted() {
    let root = Root::new("three");
    let wanted = "three parts with commas between are wanted, as in --sheet 0,1,2";
    for choice in ["", "0", "0,1", "0,1,2,3", "0,x", "0,,2", ",1,2", "0,1,", ",,", "0 1 2", "0;1;2", "a,b,c,d", "bytes"]
    {
        let told = format!("rehearse: --sheet {choice}: {wanted}");
        root.expect(&format!("'{choice}' for three parts"), &["--sheet", choice, "bytes"], 2, "", &told);
    }
    let told = "rehearse: nothing-here: no such file";
    root.expect("a sheet of no such file", &["--sheet", "0,1,2", "nothing-here"], 2, "", told);
    root.expect("a sheet of a directory", &["--sheet", "0,1,2", "."], 2, "", "rehearse: .: it is a directory");
}

#[test]
fn a_part_that_is_not_there_is_told_by_its_place() {
    let root = Root::new("parts");
    let cases = [
        ("the first part is not there", 0, "32,1,0", "32"),
        ("the second part is not there", 4, "0,0032,7", "32"),
        ("the third part is not there", 8, "0,1,4294967296", "4294967296"),
    ];
    for (name, position, choice, part) in cases {
        root.program(Program::PrintSheet, &format!("echo refused 26 at {position} >&2"));
        let told = format!("rehearse: --sheet {choice}: the table has no part {part} (refused 26)");
        root.expect(name, &["--sheet", choice, "bytes"], 2, "", &told);
    }
}

#[test]
fn what_the_program_says() {
    let root = Root::new("sheet-said");
    let cases = [
        ("a program that fails behind that", "echo refused 26 at 8 >&2; exit 7", 7, "", "refused 26 at 8"),
        ("a position of no number", "echo refused 26 at 5 >&2", 3, "", "refused 26 at 5"),
        ("a refused load", "echo refused 11 at 59", 0, "refused 11 at 59\n", ""),
        (
            "lines of a sheet that could not be written",
            "echo a line; echo printsheet: a failed write >&2",
            3,
            "a line\n",
            "printsheet: a failed write",
        ),
        ("the status of a sheet's program", "echo a line; exit 7", 7, "a line\n", ""),
    ];
    for (name, script, status, out, err) in cases {
        root.program(Program::PrintSheet, script);
        root.expect(name, &["--sheet", "0,1,9", "bytes"], status, out, err);
    }
}
