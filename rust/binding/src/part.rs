//! A part as a typed record, read from its words in the table and in the state.
use crate::{SPANS, STATE_RECORD, TABLE_RECORD};

/// The kinds of part, in the order of their numbers.
#[derive(Clone, Copy, Debug, PartialEq, Eq)]
pub enum Kind {
    Constant,
    Gain,
    Adder,
    Square,
    Pulse,
    Delay,
    Integrator,
    ResetIntegrator,
    Detector,
    Hold,
    Sampler,
    Drive,
    Clapper,
}

/// The kinds by their numbers.
pub const KINDS: [Kind; 13] = [
    Kind::Constant,
    Kind::Gain,
    Kind::Adder,
    Kind::Square,
    Kind::Pulse,
    Kind::Delay,
    Kind::Integrator,
    Kind::ResetIntegrator,
    Kind::Detector,
    Kind::Hold,
    Kind::Sampler,
    Kind::Drive,
    Kind::Clapper,
];

/// The side of zero on which a detector last saw its input; zero itself is on neither.
#[derive(Clone, Copy, Debug, PartialEq, Eq)]
pub enum Side {
    Unset,
    Negative,
    Positive,
}

/// A detector's pending mark: none, 1 or -1.
#[derive(Clone, Copy, Debug, PartialEq, Eq)]
pub enum Mark {
    Clear,
    Rising,
    Falling,
}

/// A part. Of `spans` the first `span_count` are in use; a port is `None` where it is unwired, else the
/// number of its source part; a signal is `None` where it is absent. `held` is the held number, a clapper's
/// position, and `speed` the second held number, a clapper's speed: of another kind it is 0 in a sound model.
#[derive(Clone, Copy, Debug, PartialEq, Eq)]
pub struct Part {
    pub kind: Kind,
    pub preference: u8,
    pub a: i64,
    pub b: i64,
    pub p: u32,
    pub span_count: u64,
    pub spans: [u32; SPANS],
    pub port0: Option<u16>,
    pub port1: Option<u16>,
    pub ratio: u64,
    pub local: u64,
    pub held: i64,
    pub speed: i64,
    pub signal: Option<i64>,
    pub output: Option<i64>,
    pub side: Side,
    pub mark: Mark,
}

impl Part {
    /// The part of these words; none where a code is no case's or a number is wider than its field.
    pub(crate) fn of_words(table: &[u64; TABLE_RECORD], state: &[u64; STATE_RECORD]) -> Option<Part> {
        // The span words after the count are free.
        let used = table[5].min(SPANS as u64) as usize;
        let mut spans = [0; SPANS];
        for (span, &word) in spans[..used].iter_mut().zip(&table[6..]) {
            *span = u32::try_from(word).ok()?;
        }
        Some(Part {
            kind: coded(&KINDS, table[0])?,
            preference: u8::try_from(table[1]).ok()?,
            a: table[2] as i64,
            b: table[3] as i64,
            p: u32::try_from(table[4]).ok()?,
            span_count: table[5],
            spans,
            port0: port(table[14])?,
            port1: port(table[15])?,
            ratio: table[16],
            local: state[0],
            held: state[1] as i64,
            speed: state[2] as i64,
            signal: signal(state[3], state[4])?,
            output: signal(state[5], state[6])?,
            side: coded(&[Side::Unset, Side::Negative, Side::Positive], state[7])?,
            mark: coded(&[Mark::Clear, Mark::Rising, Mark::Falling], state[8])?,
        })
    }
}

/// The case with a code.
fn coded<T: Copy>(cases: &[T], code: u64) -> Option<T> {
    cases.get(usize::try_from(code).ok()?).copied()
}

/// A port: 0 where it is unwired, k + 1 from part k.
fn port(word: u64) -> Option<Option<u16>> {
    match word {
        0 => Some(None),
        k => u16::try_from(k - 1).ok().map(Some),
    }
}

/// A signal: 0 and any word where it is absent, else 1 and the value.
fn signal(code: u64, value: u64) -> Option<Option<i64>> {
    match code {
        0 => Some(None),
        1 => Some(Some(value as i64)),
        _ => None,
    }
}
