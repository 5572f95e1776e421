//! The list of refusals: each has its number and no other has one, what they are printed as, that docs/MANUAL.md has
//! exactly the list's table, and that the proved code has the same names and numbers.
use dozhumek::{load, Refusal, RefusedAt};
use std::fs;

/// The refusals and their numbers.
const NUMBERS: [(Refusal, u64); 18] = [
    (Refusal::Cut, 1),
    (Refusal::UnknownCommand, 2),
    (Refusal::OutOfPlace, 3),
    (Refusal::OutOfRange, 5),
    (Refusal::TooMany, 6),
    (Refusal::NotThere, 7),
    (Refusal::AlreadyWired, 8),
    (Refusal::NoParts, 9),
    (Refusal::PeriodTooLong, 10),
    (Refusal::Loop, 11),
    (Refusal::SpanNotRising, 12),
    (Refusal::WantedOutOfRange, 20),
    (Refusal::DueAtLastMicrostep, 21),
    (Refusal::NoStepAccepted, 22),
    (Refusal::PastLastTick, 23),
    (Refusal::NotSound, 24),
    (Refusal::TooShort, 25),
    (Refusal::NotPrintable, 26),
];

/// The first line of the manual's table of refusals.
const HEADING: &str = "| Number | Meaning | What to do |";

/// The rows of the manual's table of refusals, as they are there.
fn rows(text: &str) -> Vec<&str> {
    assert_eq!(text.lines().filter(|&line| line == HEADING).count(), 1, "docs/MANUAL.md has one table of refusals");
    let mut below = text.lines().skip_while(|&line| line != HEADING).skip(1);
    assert_eq!(below.next(), Some("|---|---|---|"));
    below.take_while(|line| line.starts_with('|')).collect()
}

#[test]
fn numbers() {
    let all: Vec<(Refusal, u64)> = Refusal::all().map(|refusal| (refusal, refusal.number())).collect();
    assert_eq!(all, NUMBERS);
    for (refusal, number) in NUMBERS {
        assert_eq!(Refusal::of_number(number), Some(refusal));
    }
}

#[test]
fn no_other_numbers() {
    let known = |number: &u64| NUMBERS.iter().any(|(_, own)| own == number);
    let wider = NUMBERS.iter().flat_map(|(_, number)| [8, 16, 32, 63].map(|bits| number + (1 << bits)));
    for number in (0..100).filter(|number| !known(number)).chain(wider).chain([u64::MAX]) {
        assert_eq!(Refusal::of_number(number), None, "{number}");
    }
}

#[test]
fn texts_fit_a_row() {
    let mut meanings = Vec::new();
    for refusal in Refusal::all() {
        for text in [refusal.meaning(), refusal.advice()] {
            assert!(!text.is_empty() && text.trim() == text, "{refusal:?}: {text}");
            assert!(!text.contains(['|', '\n']) && !text.contains("  "), "{refusal:?}: {text}");
        }
        assert!(!meanings.contains(&refusal.meaning()), "{refusal:?}: its meaning is another's");
        meanings.push(refusal.meaning());
    }
}

#[test]
fn printed() {
    assert_eq!(Refusal::NoParts.to_string(), "refused 9: no parts");
    let refused = load(&[1, 0, 5]).unwrap_err();
    assert_eq!(refused, RefusedAt { refusal: Refusal::NoParts, position: 2 });
    assert_eq!(refused.to_string(), "refused 9 at 2: no parts");
}

#[test]
fn the_table_of_the_manual() {
    let text = fs::read_to_string(concat!(env!("CARGO_MANIFEST_DIR"), "/../../docs/MANUAL.md")).unwrap();
    let due: Vec<String> =
        Refusal::all().map(|of| format!("| {} | {} | {} |", of.number(), of.meaning(), of.advice())).collect();
    let rows = rows(&text);
    let others: Vec<_> = rows.iter().zip(&due).filter(|(row, due)| row != due).collect();
    assert!(others.is_empty(), "the manual's rows and the list's, where they differ: {others:#?}");
    assert_eq!(rows.len(), due.len(), "the manual has more rows or fewer");
}

#[test]
fn the_list_of_the_proved_code() {
    let text = fs::read_to_string(concat!(env!("CARGO_MANIFEST_DIR"), "/../../crates/refusals/src/lib.rt")).unwrap();
    let (_, after) = text.split_once("pub enum Refusal {\n").expect("the list is the cases of an enum");
    let (list, _) = after.split_once("\n}").expect("the enum ends");
    let cases = list.lines().map(str::trim).filter(|line| !line.starts_with("//"));
    let case =
        |line: &str| line.strip_suffix(',')?.split_once(" = ").map(|(name, n)| (name.into(), n.parse().unwrap()));
    let proved: Vec<(String, u64)> = cases.map(|line| case(line).expect("a case has its number")).collect();
    let due: Vec<(String, u64)> = Refusal::all().map(|refusal| (format!("{refusal:?}"), refusal.number())).collect();
    assert_eq!(proved, due);
}
