//! Cases with answers worked out by hand: the played examples of the document, and the readings that miss. For these
//! the answer of the wrong reading is written down too, so that the case is seen to tell the two apart.

mod clappers;
mod longest;

use crate::draft::*;

pub struct Named {
    pub name: &'static str,
    pub stream: Vec<u8>,
    pub expected: String,
    pub wrong_reading: Option<&'static str>,
}

struct Table(Draft);

impl Table {
    /// A table without parts.
    fn new(magnitude: u8) -> Table {
        Table(Draft { magnitude, ..Draft::default() })
    }

    /// With a part more.
    fn part(self, kind: u8, a: i32, b: i32, p: u32) -> Table {
        self.preferring(NO_PREFERENCE, kind, a, b, p)
    }

    /// With a part more that has a preference.
    fn preferring(mut self, preference: u8, kind: u8, a: i32, b: i32, p: u32) -> Table {
        let number = self.0.add(kind, a, b, p);
        self.0.rows[number].preference = preference;
        self
    }

    /// With the spans of the part before.
    fn spans(mut self, spans: &[u32]) -> Table {
        if let Some(row) = self.0.rows.last_mut() {
            row.spans = spans.to_vec();
        }
        self
    }

    /// With a wire more.
    fn wire(mut self, source: usize, reader: usize, port: u8) -> Table {
        self.0.wire(source, reader, port);
        self
    }

    /// The table's bytes and a score's.
    fn score(self, steps: &[u32]) -> Vec<u8> {
        let mut bytes = self.0.in_order();
        bytes.extend(steps.iter().flat_map(|&w| wanted(w)));
        bytes
    }
}

/// A constant into an integrator into a detector of tolerance 1.
fn watched(rate: i32, start: i32) -> Table {
    let parts = Table::new(0).part(CONSTANT, rate, 0, 0).part(INTEGRATOR, start, 0, 0).part(DETECTOR, 0, 0, 1);
    parts.wire(0, 1, 0).wire(1, 2, 0)
}

/// A case with the answer that the document gives, and that of a wrong reading.
fn case(name: &'static str, stream: Vec<u8>, expected: &str, wrong_reading: Option<&'static str>) -> Named {
    Named { name, stream, expected: expected.to_string(), wrong_reading }
}

/// All named cases.
pub fn named() -> Vec<Named> {
    let mut all = readings_that_miss();
    all.extend(zeros_that_mark());
    all.extend(clappers::clappers());
    all.extend(played_examples());
    all.push(restless());
    all.push(case("played: the empty stream", Vec::new(), "refused 1 at 0\n", None));
    all.push(longest_score());
    all.extend(longest::longest());
    all
}

/// What the document names as readings that miss, each with a case that tells it apart.
fn readings_that_miss() -> Vec<Named> {
    vec![
        case(
            "missed: each step divided by r instead of the whole time",
            Table::new(2).part(CONSTANT, 1, 0, 0).preferring(0, INTEGRATOR, 0, 0, 0).wire(0, 1, 0).score(&[40, 40, 40]),
            "40 0 40 1 0 1 0\n80 0 40 1 0 1 0\n120 0 40 1 0 1 1\n",
            Some("40 0 40 1 0 1 0\n80 0 40 1 0 1 0\n120 0 40 1 0 1 0\n"),
        ),
        case(
            "missed: the least reply after one round only",
            Table::new(0).part(DRIVE, 0, 0, 0).spans(&[3, 8]).part(DRIVE, 0, 0, 0).spans(&[3, 5]).score(&[9]),
            "3 0 3 3 0 0 0\n",
            Some("5 0 5 1 0 0 0\n"),
        ),
        case(
            "missed: a detector's side changed after a dropped trial",
            watched(2, -7).score(&[8; 4]),
            "2 0 2 3 2 2 -3 -\n3 0 1 4 3 2 -1 -\n4 0 1 4 3 2 1 -\n4 1 0 2 0 2 1 1\n",
            Some("4 0 4 2 1 2 1 -\n12 0 8 1 0 2 17 -\n20 0 8 1 0 2 33 -\n28 0 8 1 0 2 49 -\n"),
        ),
        case(
            "missed: from (k × P, 0) past the pulse",
            Table::new(0).part(PULSE, 7, 0, 4).score(&[10, 10, 10, 10]),
            "4 0 4 2 0 -\n4 1 0 2 0 7\n8 0 4 2 0 -\n8 1 0 2 0 7\n",
            Some("4 0 4 2 0 -\n8 0 4 2 0 -\n12 0 4 2 0 -\n16 0 4 2 0 -\n"),
        ),
    ]
}

/// What zero was before request 1, not negative: a touch from below then sets two marks, and a passage one too soon.
fn zeros_that_mark() -> Vec<Named> {
    vec![
        case(
            "missed: a mark at a touch of zero from below",
            Table::new(0).part(SQUARE, -1, 0, 2).part(DETECTOR, 0, 0, 1).wire(0, 1, 0).score(&[2; 5]),
            "2 0 2 1 0 -1 -\n2 1 0 2 0 0 -\n4 0 2 1 0 0 -\n4 1 0 2 0 -1 -\n6 0 2 1 0 -1 -\n",
            Some("2 0 2 1 0 -1 -\n2 1 0 2 0 0 -\n2 2 0 2 0 0 1\n4 0 2 1 0 0 -\n4 1 0 2 0 -1 -\n"),
        ),
        case(
            "missed: a mark at zero on the way through it",
            watched(1, -2).score(&[1; 4]),
            "1 0 1 1 0 1 -1 -\n2 0 1 1 0 1 0 -\n3 0 1 1 0 1 1 -\n3 1 0 2 0 1 1 1\n",
            Some("1 0 1 1 0 1 -1 -\n2 0 1 1 0 1 0 -\n2 1 0 2 0 1 0 1\n3 0 1 1 0 1 1 -\n"),
        ),
    ]
}

/// The document's played examples that are a few lines long.
fn played_examples() -> Vec<Named> {
    vec![
        case(
            "played: the program's example",
            Table::new(0).part(CONSTANT, 1, 0, 0).part(DRIVE, 0, 0, 0).spans(&[2, 5]).wire(0, 1, 0).score(&[7, 4, 1]),
            "5 0 5 2 0 1 5\n7 0 2 2 0 1 7\nrefused 22\n",
            None,
        ),
        case(
            "played: ratio 10, span {2}, at tick 7",
            Table::new(1)
                .part(CONSTANT, 1, 0, 0)
                .preferring(0, DRIVE, 0, 0, 0)
                .spans(&[2])
                .wire(0, 1, 0)
                .score(&[7, 50]),
            "7 0 7 1 0 1 0\n29 0 22 2 0 1 2\n",
            None,
        ),
        case(
            "played: a square at its first edge",
            Table::new(0).part(SQUARE, 5, -6, 4).score(&[9, 9, 9, 9]),
            "4 0 4 2 0 5\n4 1 0 2 0 -6\n8 0 4 2 0 -6\n8 1 0 2 0 5\n",
            None,
        ),
        case(
            "played: a gain wired to itself",
            Table::new(0).part(GAIN, 2, 0, 0).wire(0, 0, 0).score(&[5]),
            "refused 11 at 21\n",
            None,
        ),
        case(
            "played: an integrator wired to itself",
            Table::new(0).part(INTEGRATOR, 1, 0, 0).wire(0, 0, 0).score(&[5, 5]),
            "5 0 5 1 0 6\n10 0 5 1 0 36\n",
            None,
        ),
    ]
}

/// A delay that is due at every microstep of a tick.
fn restless() -> Named {
    let mut lines: String = (1..=999).map(|n| format!("0 {n} 0 2 0 3 3\n")).collect();
    lines.push_str("refused 21\nrefused 21\nrefused 20\n");
    let mut steps = vec![1; 1001];
    steps.push(0);
    case(
        "played: a constant into a delay",
        Table::new(0).part(CONSTANT, 3, 0, 0).part(DELAY, 0, 0, 0).wire(0, 1, 0).score(&steps),
        &lines,
        None,
    )
}

/// A score that is longer than what the program reads: 18 bytes of table, 13,103 commands, and three bytes of the next.
fn longest_score() -> Named {
    let mut stream = Table::new(0).part(CONSTANT, 3, 0, 0).score(&vec![0; 13_200]);
    stream.truncate(70_000);
    let expected = "refused 20\n".repeat(13_103) + "refused 1 at 65533\n";
    case("the longest score the program reads, cut in its last command", stream, &expected, None)
}
