//! What the commands of tables held: operands at the ends of their ranges and one beyond, and several faults at once.
//! The faults are found by document 01's table alone, and the first of them has to be the refusal.

use cases::draft::{is_direct, names, DRIVE, KINDS, NO_PREFERENCE, PORTS};
use second::{Loaded, Refusal};
use std::collections::BTreeMap;

/// How often each was seen.
#[derive(Default)]
pub struct Commands {
    /// Operands of accepted commands at an end of their range, and of refused ones that alone are at fault, one beyond.
    operands: BTreeMap<(Name, Place), u64>,
    /// Faults of a refused command: the number that refused it, and another one.
    pairs: BTreeMap<[u8; 2], u64>,
    /// Refusals that are not the first fault by document 01, or not at its command.
    astray: u64,
}

/// An operand, and the kind of part where its range is by the kind.
type Name = (&'static str, Option<u8>);

#[derive(Clone, Copy, PartialEq, Eq, PartialOrd, Ord)]
enum Place {
    Below,
    Lowest,
    Highest,
    Above,
}
use Place::{Above, Below, Highest, Lowest};

const BILLION: i64 = 1_000_000_000;
const LAST_TICK: u128 = 1_000_000_000_000_000_000;
const MAGNITUDES: [i64; 2] = [0, 15];

// The bytes of the commands, and how many each has with its operands.
const BEGIN: u8 = 1;
const PART: u8 = 2;
const SPAN: u8 = 3;
const WIRE: u8 = 4;
const END: u8 = 5;
const WANTED: u8 = 6;
const WIDTHS: [usize; 7] = [1, 2, 15, 5, 4, 1, 5];

/// Pairs of faults that one command can have, in the order in which they count.
const PAIRS: [[u8; 2]; 15] = [
    [2, 3],
    [3, 1],
    [3, 6],
    [3, 5],
    [3, 12],
    [3, 7],
    [3, 9],
    [1, 6],
    [1, 5],
    [1, 7],
    [6, 5],
    [6, 12],
    [5, 12],
    [7, 8],
    [10, 11],
];

/// An operand that is all there, its range, and the number that refuses another.
struct Operand {
    name: Name,
    value: i64,
    range: [i64; 2],
    number: u8,
}

impl Operand {
    /// Whether the operand is out of its range.
    fn is_out(&self) -> bool {
        let none = self.name.0 == "preference" && self.value == i64::from(NO_PREFERENCE);
        !none && !(self.range[0]..=self.range[1]).contains(&self.value)
    }

    /// Where the operand is, if that is at an end of its range or one beyond.
    fn place(&self) -> Option<Place> {
        let [lowest, highest] = self.range;
        match self.value {
            value if value == lowest - 1 => Some(Below),
            value if value == highest + 1 => Some(Above),
            value if value == lowest => Some(Lowest),
            value if value == highest => Some(Highest),
            _ => None,
        }
    }
}

/// A part as its command gives it.
struct Row {
    kind: u8,
    preference: u8,
    p: i64,
}

/// What the commands before one have given, all of which were without fault.
#[derive(Default)]
struct Before {
    magnitude: Option<u8>,
    rows: Vec<Row>,
    /// The spans of the last part.
    spans: Vec<i64>,
    span_may_follow: bool,
    /// Source, reader and port.
    wires: Vec<[i64; 3]>,
}

/// The signed or unsigned number of four bytes at a place, if they are all there.
fn number(bytes: &[u8], at: usize, signed: bool) -> Option<i64> {
    let number = *bytes.get(at..)?.first_chunk()?;
    Some(if signed { i32::from_le_bytes(number).into() } else { u32::from_le_bytes(number).into() })
}

impl Before {
    /// The operands of the command at the front of these bytes that are all there.
    fn operands(&self, bytes: &[u8]) -> Vec<Operand> {
        let byte = |at: usize| bytes.get(at).map(|&byte| i64::from(byte));
        let operand = |name: Name, value: Option<i64>, range: [i64; 2], number: u8| {
            value.map(|value| Operand { name, value, range, number })
        };
        let parts = [0, self.rows.len() as i64 - 1];
        let all = match bytes.first() {
            Some(&BEGIN) => vec![operand(("magnitude", None), byte(1), MAGNITUDES, 5)],
            Some(&PART) => return self.part_operands(bytes),
            Some(&SPAN) => vec![operand(("span", None), number(bytes, 1, false), [1, BILLION], 5)],
            Some(&WIRE) => {
                let reader = bytes.get(2).and_then(|&reader| self.rows.get(usize::from(reader)));
                let kind = reader.map(|reader| reader.kind);
                let ports = [0, kind.map_or(255, |kind| i64::from(PORTS[usize::from(kind)]) - 1)];
                vec![
                    operand(("source", None), byte(1), parts, 7),
                    operand(("reader", None), byte(2), parts, 7),
                    operand(("port", kind), byte(3), ports, 7),
                ]
            }
            _ => vec![],
        };
        all.into_iter().flatten().collect()
    }

    /// The operands of a Part that are all there.
    fn part_operands(&self, bytes: &[u8]) -> Vec<Operand> {
        let Some(&kind) = bytes.get(1) else { return vec![] };
        let operand = |name: Name, value: i64, range: [i64; 2]| Operand { name, value, range, number: 5 };
        let mut all = vec![operand(("kind", None), kind.into(), [0, KINDS as i64 - 1])];
        all.extend(bytes.get(2).map(|&own| operand(("preference", None), own.into(), MAGNITUDES)));
        if usize::from(kind) < KINDS {
            let ranges = [[-BILLION, BILLION], [-BILLION, BILLION], [1, BILLION]];
            for (at, name) in ["a", "b", "p"].into_iter().enumerate() {
                let range = if names(kind)[at] { ranges[at] } else { [0, 0] };
                let value = number(bytes, 3 + 4 * at, name != "p");
                all.extend(value.map(|value| operand((name, Some(kind)), value, range)));
            }
        }
        all
    }

    /// All faults of the command at the front of these bytes, in the order in which they count.
    fn faults(&self, bytes: &[u8]) -> Vec<u8> {
        let Some(&code) = bytes.first() else { return vec![1] };
        let operands = self.operands(bytes);
        let known = (BEGIN..=WANTED).contains(&code);
        let begun = self.magnitude.is_some();
        let in_place = match code {
            BEGIN => !begun,
            SPAN => self.span_may_follow,
            WANTED => false,
            _ => begun,
        };
        let is_cut = known && bytes.len() < WIDTHS[usize::from(code)];
        let too_many = code == PART && self.rows.len() == 32 || code == SPAN && self.spans.len() == 8;
        let is_out = |number: u8| operands.iter().any(|operand| operand.number == number && operand.is_out());
        let not_above = match &operands[..] {
            [Operand { name: ("span", _), value, .. }] => self.spans.last().is_some_and(|before| value <= before),
            _ => false,
        };
        let taken = match &operands[..] {
            [source, reader, port] if source.name.0 == "source" => {
                self.wires.iter().any(|&[_, known, taken]| [known, taken] == [reader.value, port.value])
            }
            _ => false,
        };
        let mut all = vec![(2, !known), (3, !in_place), (1, is_cut), (6, too_many), (5, is_out(5))];
        all.extend([(12, not_above), (7, is_out(7)), (8, taken)]);
        if code == END {
            all.extend([(9, self.rows.is_empty()), (10, self.has_long_period()), (11, self.has_loop())]);
        }
        all.into_iter().filter_map(|(number, is_one)| is_one.then_some(number)).collect()
    }

    /// Whether some P is above 10^18.
    fn has_long_period(&self) -> bool {
        let preferences = self.rows.iter().map(|row| row.preference).filter(|&own| own != NO_PREFERENCE);
        let largest = preferences.fold(self.magnitude.unwrap_or(0), u8::max);
        self.rows.iter().any(|row| {
            let apart = if row.preference == NO_PREFERENCE { 0 } else { largest - row.preference };
            row.p as u128 * 10u128.pow(apart.into()) > LAST_TICK
        })
    }

    /// Whether wires into direct ports close a chain: some parts are left when those that read none of the rest are
    /// taken away.
    fn has_loop(&self) -> bool {
        let direct = |wire: &&[i64; 3]| is_direct(self.rows[wire[1] as usize].kind, wire[2] as u8);
        let wires: Vec<&[i64; 3]> = self.wires.iter().filter(direct).collect();
        // A bit for each part.
        let mut left = (1u64 << self.rows.len()) - 1;
        loop {
            let readers = wires.iter().filter(|wire| left >> wire[0] & 1 == 1);
            let rest = left & readers.fold(0, |parts, wire| parts | 1 << wire[1]);
            if rest == left {
                return rest != 0;
            }
            left = rest;
        }
    }

    /// Takes a command without fault.
    fn take(&mut self, bytes: &[u8]) {
        self.span_may_follow = false;
        match *bytes {
            [BEGIN, magnitude, ..] => self.magnitude = Some(magnitude),
            [PART, kind, preference, ..] => {
                self.rows.push(Row { kind, preference, p: number(bytes, 11, false).unwrap_or(0) });
                self.spans.clear();
                self.span_may_follow = kind == DRIVE;
            }
            [SPAN, ..] => {
                self.spans.extend(number(bytes, 1, false));
                self.span_may_follow = true;
            }
            [WIRE, source, reader, port, ..] => self.wires.push([source.into(), reader.into(), port.into()]),
            _ => {}
        }
    }
}

impl Commands {
    /// Counts what the commands of a stream's table hold, up to the one that is refused.
    pub fn count(&mut self, stream: &[u8], loaded: &Loaded) {
        let mut before = Before::default();
        let mut rest = stream;
        loop {
            let faults = before.faults(rest);
            if let Some(&first) = faults.first() {
                let position = stream.len() - rest.len();
                let due = Refusal { number: first, position };
                self.astray += u64::from(loaded.as_ref().err() != Some(&due));
                self.refused(&faults, &before.operands(rest));
                return;
            }
            for operand in before.operands(rest) {
                self.operand(&operand, [Lowest, Highest]);
            }
            let code = rest[0];
            before.take(rest);
            rest = &rest[WIDTHS[usize::from(code)]..];
            if code == END {
                let end = stream.len() - rest.len();
                self.astray += u64::from(loaded.as_ref().ok().map(|accepted| accepted.end) != Some(end));
                return;
            }
        }
    }

    /// Counts the faults of a command, and its operand where that alone is at fault.
    fn refused(&mut self, faults: &[u8], operands: &[Operand]) {
        for &other in &faults[1..] {
            *self.pairs.entry([faults[0], other]).or_default() += 1;
        }
        let mut out = operands.iter().filter(|operand| operand.is_out());
        if let ([_], Some(operand), None) = (faults, out.next(), out.next()) {
            self.operand(operand, [Below, Above]);
        }
    }

    /// Counts an operand if it is at one of these places. One that is both the lowest and the highest counts as either.
    fn operand(&mut self, operand: &Operand, places: [Place; 2]) {
        let Some(own) = operand.place() else { return };
        let single = own == Lowest && operand.range[0] == operand.range[1];
        for place in places {
            if place == own || single && place == Highest {
                *self.operands.entry((operand.name, place)).or_default() += 1;
            }
        }
    }

    /// Adds what another thread counted.
    pub fn add(&mut self, other: &Commands) {
        for (&operand, count) in &other.operands {
            *self.operands.entry(operand).or_default() += count;
        }
        for (&pair, count) in &other.pairs {
            *self.pairs.entry(pair).or_default() += count;
        }
        self.astray += other.astray;
    }

    /// How often a refusal was another than the first fault by document 01.
    pub fn astray(&self) -> u64 {
        self.astray
    }

    /// Each that has to be seen, with its name.
    pub fn named(&self) -> Vec<(String, u64)> {
        let mut all = Vec::new();
        for ((name, kind), places) in all_operands() {
            for &place in places {
                let of = kind.map_or(String::new(), |kind| format!(" of kind {kind}"));
                let at =
                    ["one below its range", "at its lowest", "at its highest", "one above its range"][place as usize];
                let count = self.operands.get(&((name, kind), place)).copied().unwrap_or(0);
                all.push((format!("operand {name}{of} {at}"), count));
            }
        }
        let count = |pair: &[u8; 2]| self.pairs.get(pair).copied().unwrap_or(0);
        all.extend(PAIRS.iter().map(|pair| (format!("command at fault by {} and {}", pair[0], pair[1]), count(pair))));
        all
    }
}

/// Every operand, with the places where it can be: no byte is below 0, and a kind without ports has none to be at.
fn all_operands() -> Vec<(Name, &'static [Place])> {
    const UNSIGNED: &[Place] = &[Lowest, Highest, Above];
    const ALL: &[Place] = &[Below, Lowest, Highest, Above];
    let mut all: Vec<(Name, &'static [Place])> = vec![(("span", None), ALL)];
    all.extend(["magnitude", "kind", "preference", "source", "reader"].map(|name| ((name, None), UNSIGNED)));
    for kind in 0..KINDS as u8 {
        let p = if names(kind)[2] { ALL } else { UNSIGNED };
        all.extend([(("a", Some(kind)), ALL), (("b", Some(kind)), ALL), (("p", Some(kind)), p)]);
        let ports = if PORTS[usize::from(kind)] > 0 { UNSIGNED } else { &[Above] };
        all.push((("port", Some(kind)), ports));
    }
    all
}
