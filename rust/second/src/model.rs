//! Points of time, parts and models, and the test whether a model is one that loading and advancing can give.

use crate::order;
use std::cmp::Ordering;

pub const LAST_TICK: u64 = 1_000_000_000_000_000_000;
pub const LAST_MICROSTEP: u16 = 999;
pub const VALUE_LIMIT: i32 = 1_000_000_000;
pub const OPERAND_LIMIT: u32 = 1_000_000_000;
pub const LARGEST_MAGNITUDE: u8 = 15;
pub const MOST_PARTS: usize = 32;
pub const MOST_SPANS: usize = 8;
/// The byte of a part that prefers no magnitude.
pub const NO_PREFERENCE: u8 = 0xFF;

const POWERS_OF_TEN: [u64; LARGEST_MAGNITUDE as usize + 1] = {
    let mut powers = [1; LARGEST_MAGNITUDE as usize + 1];
    let mut i = 1;
    while i < powers.len() {
        powers[i] = powers[i - 1] * 10;
        i += 1;
    }
    powers
};

/// A point of superdense time: a tick and a microstep. The derived order is by tick, then by microstep.
#[derive(Clone, Copy, Debug, PartialEq, Eq, PartialOrd, Ord)]
pub struct Point {
    pub t: u64,
    pub n: u16,
}

impl Point {
    pub const START: Point = Point { t: 0, n: 0 };
    pub const LAST: Point = Point { t: LAST_TICK, n: LAST_MICROSTEP };

    /// The point that a step of `h` leads to; the caller knows that there is one.
    pub(crate) fn after(self, h: u64) -> Point {
        if h == 0 {
            Point { t: self.t, n: self.n + 1 }
        } else {
            Point { t: self.t + h, n: 0 }
        }
    }
}

/// What a port reads and an output shows: a value or absent.
pub type Signal = Option<i32>;

/// The side on which a detector saw its input. As a mark it says where the input went.
#[derive(Clone, Copy, Debug, PartialEq, Eq)]
pub enum Side {
    Negative,
    Positive,
}

impl Side {
    /// The side that an input is on: none where it is zero or absent, and a detector then stays on its own.
    pub fn of(x: Signal) -> Option<Side> {
        match x?.cmp(&0) {
            Ordering::Less => Some(Side::Negative),
            Ordering::Equal => None,
            Ordering::Greater => Some(Side::Positive),
        }
    }

    /// The number that a mark shows as an output.
    pub fn mark(self) -> i32 {
        match self {
            Side::Negative => -1,
            Side::Positive => 1,
        }
    }
}

#[derive(Clone, Debug, PartialEq, Eq)]
pub enum Kind {
    Constant { a: i32 },
    Gain { a: i32 },
    Adder,
    Square { a: i32, b: i32, p: u32 },
    Pulse { a: i32, p: u32 },
    Delay,
    Integrator { a: i32 },
    ResetIntegrator { a: i32 },
    Detector { p: u32 },
    Hold,
    Sampler,
    Drive { a: i32, spans: Vec<u32> },
    Clapper { a: i32, b: i32 },
}

impl Kind {
    /// How many ports the kind has; they count from 0.
    pub fn ports(&self) -> usize {
        match self {
            Kind::Constant { .. } | Kind::Square { .. } | Kind::Pulse { .. } => 0,
            Kind::Adder | Kind::ResetIntegrator { .. } | Kind::Sampler => 2,
            _ => 1,
        }
    }

    /// Whether the output reads a port within a point.
    pub fn is_direct(&self, port: usize) -> bool {
        match self {
            Kind::Gain { .. } | Kind::Hold => port == 0,
            Kind::Adder | Kind::Sampler => port < 2,
            Kind::ResetIntegrator { .. } => port == 1,
            _ => false,
        }
    }

    /// The kind's number, and its operands a, b and p, 0 where it does not name one.
    pub fn operands(&self) -> (u8, i32, i32, u32) {
        match *self {
            Kind::Constant { a } => (0, a, 0, 0),
            Kind::Gain { a } => (1, a, 0, 0),
            Kind::Adder => (2, 0, 0, 0),
            Kind::Square { a, b, p } => (3, a, b, p),
            Kind::Pulse { a, p } => (4, a, 0, p),
            Kind::Delay => (5, 0, 0, 0),
            Kind::Integrator { a } => (6, a, 0, 0),
            Kind::ResetIntegrator { a } => (7, a, 0, 0),
            Kind::Detector { p } => (8, 0, 0, p),
            Kind::Hold => (9, 0, 0, 0),
            Kind::Sampler => (10, 0, 0, 0),
            Kind::Drive { a, .. } => (11, a, 0, 0),
            Kind::Clapper { a, b } => (12, a, b, 0),
        }
    }

    /// Operand p of the kinds that have one.
    pub fn p(&self) -> Option<u32> {
        match *self {
            Kind::Square { p, .. } | Kind::Pulse { p, .. } | Kind::Detector { p } => Some(p),
            _ => None,
        }
    }

    /// Where the held number starts: at operand a of the kinds that integrate. The others hold no number; theirs is 0.
    pub fn first_held(&self) -> i32 {
        match *self {
            Kind::Integrator { a } | Kind::ResetIntegrator { a } | Kind::Drive { a, .. } | Kind::Clapper { a, .. } => a,
            _ => 0,
        }
    }

    /// Where the speed starts: at operand b of a clapper. The others have none; theirs is 0.
    pub fn first_speed(&self) -> i32 {
        match *self {
            Kind::Clapper { b, .. } => b,
            _ => 0,
        }
    }
}

/// Whether a number is a value.
pub fn is_value(x: i32) -> bool {
    (-VALUE_LIMIT..=VALUE_LIMIT).contains(&x)
}

/// Whether a signal is absent or a value.
fn is_signal(x: Signal) -> bool {
    x.is_none_or(is_value)
}

/// The range of p and of a span.
pub fn is_count(x: u32) -> bool {
    (1..=OPERAND_LIMIT).contains(&x)
}

/// Whether a drive can have these spans.
fn are_spans(spans: &[u32]) -> bool {
    spans.len() <= MOST_SPANS
        && spans.iter().all(|&span| is_count(span))
        && spans.windows(2).all(|pair| pair[0] < pair[1])
}

/// A part: its row of the table, the ratio that loading gave it, and what it keeps from point to point.
#[derive(Clone, Debug, PartialEq, Eq)]
pub struct Part {
    pub kind: Kind,
    pub preference: Option<u8>,
    /// The source wired to each port.
    pub inputs: [Option<u8>; 2],
    pub ratio: u64,
    pub local: u64,
    pub output: Signal,
    /// The held number of the kinds that integrate; a clapper's position.
    pub held: i32,
    /// The second held number: a clapper's speed.
    pub speed: i32,
    /// The held signal of a hold.
    pub kept: Signal,
    pub side: Option<Side>,
    pub mark: Option<Side>,
}

impl Part {
    /// A part as its command gives it: unwired, and before loading knows the ratios.
    pub fn new(kind: Kind, preference: Option<u8>) -> Part {
        Part {
            preference,
            inputs: [None; 2],
            ratio: 1,
            local: 0,
            output: None,
            held: kind.first_held(),
            speed: kind.first_speed(),
            kept: None,
            side: None,
            mark: None,
            kind,
        }
    }

    /// P of a part with this operand p, which loading has found to be small enough.
    pub(crate) fn period(&self, p: u32) -> u64 {
        u64::from(p) * self.ratio
    }

    /// Whether P of a part with this operand p is small enough.
    pub(crate) fn is_period(&self, p: u32) -> bool {
        u64::from(p).checked_mul(self.ratio).is_some_and(|period| period <= LAST_TICK)
    }

    /// The local count at a tick.
    pub(crate) fn local_at(&self, t: u64) -> u64 {
        // Most parts count as the master does, and dividing is slow.
        if self.ratio == 1 {
            t
        } else {
            t / self.ratio
        }
    }

    /// The sources wired to direct ports.
    pub(crate) fn direct_sources(&self) -> impl Iterator<Item = usize> + '_ {
        (0..2).filter(|&port| self.kind.is_direct(port)).filter_map(|port| self.inputs[port]).map(usize::from)
    }

    /// Whether the part is sound in a model of so many parts, of this magnitude, at tick t.
    fn is_sound(&self, parts: usize, magnitude: u8, t: u64) -> bool {
        let operands = match self.kind {
            Kind::Constant { a } | Kind::Gain { a } | Kind::Integrator { a } | Kind::ResetIntegrator { a } => {
                is_value(a)
            }
            Kind::Square { a, b, p } => is_value(a) && is_value(b) && is_count(p) && self.is_period(p),
            Kind::Clapper { a, b } => is_value(a) && is_value(b),
            Kind::Pulse { a, p } => is_value(a) && is_count(p) && self.is_period(p),
            Kind::Detector { p } => is_count(p) && self.is_period(p),
            Kind::Drive { a, ref spans } => is_value(a) && are_spans(spans),
            Kind::Adder | Kind::Delay | Kind::Hold | Kind::Sampler => true,
        };
        let is_speed = if let Kind::Clapper { .. } = self.kind { is_value(self.speed) } else { self.speed == 0 };
        let ports = self.kind.ports();
        let is_wire = |port: usize| match self.inputs[port] {
            None => true,
            Some(source) => port < ports && usize::from(source) < parts,
        };
        operands
            && is_wire(0)
            && is_wire(1)
            // The master's magnitude is no less than any preference and at most 15.
            && self.ratio == ratio(magnitude, self.preference)
            && self.local.checked_mul(self.ratio).is_some_and(|tick| tick <= t && t - tick < self.ratio)
            && is_signal(self.output)
            && is_value(self.held)
            && is_speed
            && is_signal(self.kept)
    }
}

/// Master ticks to one local tick of a part.
pub(crate) fn ratio(magnitude: u8, preference: Option<u8>) -> u64 {
    preference.map_or(1, |own| POWERS_OF_TEN[usize::from(magnitude - own)])
}

#[derive(Clone, Debug, PartialEq, Eq)]
pub struct Model {
    /// The default magnitude of Begin.
    pub default_magnitude: u8,
    pub parts: Vec<Part>,
    /// The numbers of the parts, in the order in which outputs are taken.
    pub order: Vec<u8>,
    pub point: Point,
}

impl Model {
    /// The largest of the default magnitude and all preferences.
    pub fn magnitude(&self) -> u8 {
        self.parts.iter().filter_map(|part| part.preference).fold(self.default_magnitude, u8::max)
    }

    /// Whether loading accepts the table and gives these ratios and this order, and all that moves is in its range.
    pub fn sound(&self) -> bool {
        let magnitude = self.magnitude();
        (1..=MOST_PARTS).contains(&self.parts.len())
            && magnitude <= LARGEST_MAGNITUDE
            && self.point.t <= LAST_TICK
            && self.point.n <= LAST_MICROSTEP
            && self.parts.iter().all(|part| part.is_sound(self.parts.len(), magnitude, self.point.t))
            && order::is_the_order(&self.parts, &self.order)
    }
}
