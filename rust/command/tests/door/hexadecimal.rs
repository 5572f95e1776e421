//! Hexadecimal text: what it may be, what of it is wrong, and how it is told from bytes.
use crate::root::{Root, INPUT, SPELLED, TEXT};
use std::fs::File;
use std::process::Stdio;

#[test]
fn digits_blanks_and_comments() {
    let root = Root::new("hexadecimal");
    root.expect("hexadecimal text", &["two words.hex"], 0, SPELLED, "");
    let every: Vec<u8> = (0..=255).collect();
    root.write("every.hex", every.iter().map(|byte| format!("{byte:02x}")).collect::<String>());
    root.expect("every byte", &["every.hex"], 0, &every, "");
    root.write("bad.hex", b"01 00 # \xc3\xa9 \xff\n");
    root.expect("any bytes in a comment", &["bad.hex"], 0, b"\x01\x00", "");
}

#[test]
fn what_spells_no_bytes_is_told_by_its_line() {
    let root = Root::new("misspelled");
    let (character, odd) = (
        "a character that is no hexadecimal digit, blank or # comment",
        "an odd number of hexadecimal digits (a byte is two digits together)",
    );
    let none = "it spells no bytes";
    let cases: [(&str, &[u8], &str, &str); 9] = [
        ("another character", b"01 00\n# g\n05 0g\n0", "line 3: ", character),
        ("a zero byte in the text", b"01 \x00 00\n", "line 1: ", character),
        ("a letter outside ASCII", b"01 \xc3\xa9\n", "line 1: ", character),
        ("an odd number of digits", b"01 00\n\n05 060 # 0\n01", "line 3: ", odd),
        ("one digit at the end", b"01 00\n0", "line 2: ", odd),
        ("a byte's digits apart", b"0 1\n", "line 1: ", odd),
        ("an empty .hex file", b"", "", none),
        ("only comments", b" \n# 01 00\n\t\n", "", none),
        ("a byte-order mark alone", b"\xef\xbb\xbf", "", none),
    ];
    for (name, text, line, why) in cases {
        root.write("bad.hex", text);
        root.expect(name, &["bad.hex"], 2, "", &format!("rehearse: bad.hex: {line}{why}"));
    }
    root.expect(
        "a sheet of what spells no bytes",
        &["--sheet", "0,1,2", "bad.hex"],
        2,
        "",
        "rehearse: bad.hex: it spells no bytes",
    );
    root.saves("saving what spells no bytes", ("bad.hex", "new"), 2, None, "rehearse: bad.hex: it spells no bytes");
}

#[test]
fn a_byte_order_mark_comes_first() {
    let root = Root::new("mark");
    root.write("mark.hex", b"\xef\xbb\xbf01 0A");
    root.expect("a byte-order mark", &["mark.hex"], 0, b"\x01\x0a", "");
    root.write("mark.hex", b"\xef\xbb\xbf# 01\r\n02\r\n");
    root.expect("a byte-order mark before a comment", &["mark.hex"], 0, b"\x02", "");
    let cases: [(&[u8], &str); 4] = [
        (b"01 \xef\xbb\xbf", "01 \\357\\273\\277"),
        (b"01\n\xef\xbb\xbf02", "01\\n\\357\\273\\27702"),
        (b"\xef\xbb\xbf\xef\xbb\xbf01", "\\357\\273\\277\\357\\273\\27701"),
        (b"\xef\xbb01", "\\357\\27301"),
    ];
    for (text, shown) in cases {
        root.write("mark.hex", text);
        let name = format!("a byte-order mark out of place, {shown}");
        root.expect(&name, &["mark.hex"], 2, "", "rehearse: mark.hex: line *: a character *");
    }
}

#[test]
fn by_name_and_by_option() {
    let root = Root::new("options-hex");
    ["two words.HEX", "text", "text.table"].iter().for_each(|name| root.write(name, TEXT));
    root.expect("hexadecimal text by capitals", &["two words.HEX"], 0, SPELLED, "");
    for file in ["text", "text.table", "two words.hex"] {
        root.expect(&format!("hexadecimal text by the option, {file}"), &["--hex", file], 0, SPELLED, "");
    }
    root.expect("the option for hexadecimal text behind FILE", &["text", "--hex"], 0, SPELLED, "");
    root.expect("the option for hexadecimal text twice", &["--hex", "text", "--hex"], 0, SPELLED, "");
    let missing = "rehearse: nothing-here: no such file";
    root.expect("hexadecimal text of no such file", &["--hex", "nothing-here"], 2, "", missing);
}

#[test]
fn on_standard_input() {
    let root = Root::new("input-hex");
    root.write("text", TEXT);
    root.write("digit", "01\n0");
    root.write("none", "");
    let fed = |arguments: &[&str], file: &str| {
        let mut command = root.command(arguments);
        command.stdin(root.input(file));
        command
    };
    root.answers("hexadecimal text on standard input", &mut fed(&["--hex"], "text"), 0, SPELLED, "");
    root.answers("hexadecimal text on standard input by a dash", &mut fed(&["--hex", "-"], "text"), 0, SPELLED, "");
    let name = "hexadecimal text on standard input and the end of the options";
    root.answers(name, &mut fed(&["--hex", "--"], "text"), 0, SPELLED, "");
    let saved = [b"\x01\x07", SPELLED].concat();
    for form in [["--hex", "--save"], ["--save", "--hex"]] {
        let name = format!("a table of hexadecimal text on standard input, {}", form.join(" "));
        root.answers(&name, &mut fed(&[form[0], form[1], "-", "saved"], "text"), 0, "", "");
        assert_eq!(root.read("saved").as_ref(), Some(&saved), "{name}");
    }
    let odd = "rehearse: standard input: line 2: an odd number *";
    root.answers("one digit on standard input", &mut fed(&["--hex"], "digit"), 2, "", odd);
    let name = "a table of one digit on standard input";
    root.answers(name, &mut fed(&["--hex", "--save", "-", "new"], "digit"), 2, "", odd);
    let none = "rehearse: standard input: it spells no bytes";
    root.answers("no hexadecimal text on standard input", &mut fed(&["--hex"], "none"), 2, "", none);
    root.expect("standard input is bytes", &["-"], 0, INPUT, "");
}

#[test]
fn a_text_has_at_most_16_mib() {
    let root = Root::new("long-hex");
    let mut text = b"01 #".to_vec();
    text.resize((16 << 20) - 1, b'x');
    text.push(b'\n');
    root.write("full.hex", &text);
    root.expect("hexadecimal text of 16 MiB", &["full.hex"], 0, b"\x01", "");
    text.push(b'\n');
    root.write("full.hex", &text);
    let longer = "it is longer than 16777216 bytes, the most that is read of a text";
    root.expect("hexadecimal text of more", &["full.hex"], 2, "", &format!("rehearse: full.hex: {longer}"));
    let mut endless = root.command(&["--hex"]);
    endless.stdin(Stdio::from(File::open("/dev/zero").expect("a device")));
    root.answers(
        "hexadecimal text without an end",
        &mut endless,
        2,
        "",
        &format!("rehearse: standard input: {longer}"),
    );
}
