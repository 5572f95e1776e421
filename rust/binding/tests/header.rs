//! Compares include/dozhumek.h with this package: its refusals, kinds, sides, marks and constants have the numbers of
//! the binding's, its places of words are those that the records are read from, and its calls have the parameters that
//! are linked here. tests/header/run compares the header with the archive.
use dozhumek::{state_words, table_words, Kind, Mark, Model, Part, Refusal, Side, KINDS};
use dozhumek::{HEAD, LAST_MICROSTEP, LAST_TICK, MOST_WANTED, PARTS, SHEET_LINE, SPANS, STATE_RECORD, TABLE_RECORD};
use std::collections::BTreeMap;
use std::fmt::Debug;
use std::fs;

/// A file of the repository.
fn text_of(name: &str) -> String {
    fs::read_to_string(format!("{}/../../{name}", env!("CARGO_MANIFEST_DIR"))).unwrap()
}

/// The header's numbers by name, without their common prefix: of plain macros and of enumerators.
fn numbers() -> BTreeMap<String, u64> {
    let mut numbers = BTreeMap::new();
    for line in text_of("include/dozhumek.h").lines() {
        let words: Vec<&str> = line.split_whitespace().collect();
        let (name, value) = match words[..] {
            ["#define", name, value] => (name, value),
            [name, "=", value] => (name, value.trim_end_matches(',')),
            _ => continue,
        };
        let value = value.trim_start_matches("UINT64_C(").trim_end_matches(')');
        if let (Some(name), Ok(value)) = (name.strip_prefix("DOZHUMEK_"), value.parse()) {
            assert_eq!(numbers.insert(name.to_string(), value), None, "{name} twice");
        }
    }
    numbers
}

/// The numbers whose names begin so, by the rest of them.
fn numbers_of(prefix: &str) -> BTreeMap<String, u64> {
    let rest = |(name, number): (String, u64)| name.strip_prefix(prefix).map(|rest| (rest.to_string(), number));
    numbers().into_iter().filter_map(rest).collect()
}

/// A case's name as the header has it: in capitals, with its words parted.
fn capitals(case: impl Debug) -> String {
    let name = format!("{case:?}");
    let parted = name.char_indices().flat_map(|(at, c)| {
        let gap = (at > 0 && c.is_uppercase()).then_some('_');
        gap.into_iter().chain([c.to_ascii_uppercase()])
    });
    parted.collect()
}

/// Fails unless the header has exactly these names with this prefix.
fn has(prefix: &str, cases: impl IntoIterator<Item = (String, u64)>) {
    assert_eq!(numbers_of(prefix), cases.into_iter().collect());
}

/// The whole comment above an enumerator, its lines joined by blanks.
fn comment_above(text: &str, enumerator: &str) -> String {
    let (above, _) = text.split_once(&format!("\n    {enumerator} = ")).unwrap();
    let mut comment: Vec<&str> = above.lines().rev().map_while(|line| line.strip_prefix("    // ")).collect();
    comment.reverse();
    comment.join(" ")
}

#[test]
fn refusals() {
    has("REFUSED_", Refusal::all().map(|refusal| (capitals(refusal), refusal.number())));
    let text = text_of("include/dozhumek.h");
    for refusal in Refusal::all() {
        let enumerator = format!("DOZHUMEK_REFUSED_{}", capitals(refusal));
        assert_eq!(comment_above(&text, &enumerator), refusal.meaning(), "the comment of {enumerator}");
    }
}

#[test]
fn codes() {
    has("KIND_", KINDS.map(|kind| (capitals(kind), kind as u64)));
    has("SIDE_", [Side::Unset, Side::Negative, Side::Positive].map(|side| (capitals(side), side as u64)));
    has("MARK_", [Mark::Clear, Mark::Rising, Mark::Falling].map(|mark| (capitals(mark), mark as u64)));
    has("SIGNAL_", [("ABSENT", 0), ("PRESENT", 1)].map(|(name, code)| (name.to_string(), code)));
    let commands = ["BEGIN", "PART", "SPAN", "WIRE", "END", "WANTED"].map(str::to_string);
    has("COMMAND_", commands.into_iter().zip(1..));
}

#[test]
fn constants() {
    let numbers = numbers();
    let named = [
        ("PARTS", PARTS),
        ("SPANS", SPANS),
        ("TABLE_RECORD", TABLE_RECORD),
        ("STATE_RECORD", STATE_RECORD),
        ("HEAD", HEAD),
        ("SHEET_LINE", SHEET_LINE),
        ("SAVE_MOST", 3 + PARTS * (15 + 5 * SPANS + 4)),
        ("NOT_REFUSED", 0),
        ("NO_PREFERENCE", 255),
        ("UNWIRED", 0),
    ];
    let limits = [("MOST_WANTED", MOST_WANTED), ("LAST_TICK", LAST_TICK), ("LAST_MICROSTEP", LAST_MICROSTEP)];
    for (name, number) in named.map(|(name, number)| (name, number as u64)).into_iter().chain(limits) {
        assert_eq!(numbers.get(name), Some(&number), "{name}");
    }
}

/// The places of words by name, and words of two parts to put numbers into.
struct Put {
    numbers: BTreeMap<String, u64>,
    table: Vec<u64>,
    state: Vec<u64>,
}

impl Put {
    /// Puts a number into the table, or into its record of part 1.
    fn table(&mut self, record: usize, field: &str, number: u64) {
        self.table[record + self.numbers[&format!("TABLE_{field}")] as usize] = number;
    }

    /// Puts a number into the state, or into its record of part 1.
    fn state(&mut self, record: usize, field: &str, number: u64) {
        self.state[record + self.numbers[&format!("STATE_{field}")] as usize] = number;
    }

    /// The model in the words, with every number that the header has a place for, each another.
    fn model(mut self) -> Model {
        for (field, number) in [("MAGNITUDE", 9), ("COUNT", 2)] {
            self.table(0, field, number);
        }
        for (field, number) in [("T", 70), ("N", 71)] {
            self.state(0, field, number);
        }
        let fixed = [("KIND", 12), ("PREFERENCE", 21), ("A", 22), ("B", 23), ("P", 24), ("SPAN_COUNT", 25)];
        let others = [("FIRST_SPAN", 26), ("PORT_0", 31), ("PORT_1", 32), ("RATIO", 33), ("ORDER", 34)];
        for (field, number) in fixed.into_iter().chain(others) {
            self.table(table_words(1), field, number);
        }
        let moved = [("LOCAL", 41), ("HELD", 42), ("SPEED", 43), ("SIDE", 1), ("MARK", 2)];
        let signals = [("SIGNAL", 1), ("SIGNAL_VALUE", 44), ("OUTPUT", 1), ("OUTPUT_VALUE", 45)];
        for (field, number) in moved.into_iter().chain(signals) {
            self.state(state_words(1), field, number);
        }
        Model::from_words(self.table, self.state)
    }
}

#[test]
fn places_of_words() {
    let (table, state) = (vec![0; table_words(2)], vec![0; state_words(2)]);
    let model = Put { numbers: numbers(), table, state }.model();
    assert_eq!([model.magnitude(), model.count(), model.t(), model.n()], [9, 2, 70, 71]);
    assert_eq!(model.order(), Some(vec![0, 34]));
    let due = Part {
        kind: Kind::Clapper,
        preference: 21,
        a: 22,
        b: 23,
        p: 24,
        span_count: 25,
        spans: [26, 0, 0, 0, 0, 0, 0, 0],
        port0: Some(30),
        port1: Some(31),
        ratio: 33,
        local: 41,
        held: 42,
        speed: 43,
        signal: Some(44),
        output: Some(45),
        side: Side::Negative,
        mark: Mark::Falling,
    };
    assert_eq!(model.part(1), Some(due));
}

/// The calls that a text declares, each by its name after `before`, and the types of its parameters in C's words.
fn declared(text: &str, before: &str, type_of: fn(&str) -> String) -> BTreeMap<String, Vec<String>> {
    let mut calls = BTreeMap::new();
    for declaration in text.split(before).skip(1) {
        let (name, rest) = declaration.split_once('(').unwrap();
        let parameters = rest.split_once(')').unwrap().0.split(',').map(str::trim);
        calls.insert(name.to_string(), parameters.filter(|one| !one.is_empty()).map(type_of).collect());
    }
    calls
}

/// The type of a parameter of the header.
fn of_c(parameter: &str) -> String {
    parameter.trim_end_matches(|c: char| c.is_alphanumeric() || c == '_').trim_end().to_string()
}

/// The type of a parameter of the linked calls, as C says it.
fn of_rust(parameter: &str) -> String {
    let (_, own) = parameter.split_once(": ").unwrap();
    let named = own.replace("u64", "uint64_t").replace("u8", "uint8_t").replace("usize", "size_t");
    match named.strip_prefix("*const ") {
        Some(read) => format!("const {read} *"),
        None => named.strip_prefix("*mut ").map_or(named.clone(), |written| format!("{written} *")),
    }
}

#[test]
fn parameters() {
    let linked = text_of("rust/binding/src/calls.rs");
    let linked = linked.split_once("extern \"C\" {").unwrap().1.split_once("\n}").unwrap().0;
    let in_header = declared(&text_of("include/dozhumek.h"), "\nuint64_t dozhumek_", of_c);
    assert_eq!(in_header, declared(linked, "fn dozhumek_", of_rust));
    assert_eq!(in_header.keys().collect::<Vec<_>>(), ["advance", "load", "preview", "save", "sheet"]);
}
