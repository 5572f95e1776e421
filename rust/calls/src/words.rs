//! A model as words in one row, part after part, with all of its places; the words of a table and of a state, which are
//! the same ones in two rows; whether they spell a model, by the rules of the words and without the binding's own code;
//! and the models of the second implementation that they mean.

use second::{Kind, Model, Part, Point, Side, Signal};

pub const WORDS: usize = 868;
pub const PARTS: usize = 32;
pub const SPANS: usize = 8;
pub const KINDS: usize = 13;

// A model's words.
pub const MAGNITUDE: usize = 0;
pub const COUNT: usize = 1;
pub const T: usize = 2;
pub const N: usize = 3;
pub const ORDER: usize = 4;
const FIRST_PART: usize = ORDER + PARTS;

// A part's words.
pub const KIND: usize = 0;
pub const PREFERENCE: usize = 1;
pub const A: usize = 2;
pub const B: usize = 3;
pub const P: usize = 4;
pub const SPAN_COUNT: usize = 5;
pub const FIRST_SPAN: usize = 6;
pub const PORT: usize = FIRST_SPAN + SPANS;
pub const RATIO: usize = PORT + 2;
pub const LOCAL: usize = 17;
pub const HELD: usize = 18;
pub const SPEED: usize = 19;
pub const SIGNAL: usize = 20;
pub const OUTPUT: usize = 22;
pub const SIDE: usize = 24;
pub const MARK: usize = 25;
pub const PART_WORDS: usize = 26;

// The words before the parts of a table and of a state, and how many each has for a part: the words of a part up to its
// ratio and then its place of the order, and the words from its local count on.
pub const HEAD: usize = 2;
pub const TABLE_RECORD: usize = LOCAL + 1;
pub const STATE_RECORD: usize = PART_WORDS - LOCAL;

pub const NO_PREFERENCE: u64 = 255;

#[derive(Clone, PartialEq, Eq)]
pub struct Words(pub [u64; WORDS]);

impl Words {
    /// No model: no parts, and all else 0.
    pub fn none() -> Words {
        Words([0; WORDS])
    }

    /// The words of a table and of a state; those that are missing are 0.
    pub fn of_lent(table: &[u64], state: &[u64]) -> Words {
        let mut table = table.iter().copied().chain(std::iter::repeat(0));
        let mut state = state.iter().copied().chain(std::iter::repeat(0));
        let next = |words: &mut dyn Iterator<Item = u64>| words.next().unwrap_or(0);
        let mut words = Words::none();
        (words.0[MAGNITUDE], words.0[COUNT]) = (next(&mut table), next(&mut table));
        (words.0[T], words.0[N]) = (next(&mut state), next(&mut state));
        for number in 0..PARTS {
            let (fixed, own) = words.part_mut(number).split_at_mut(LOCAL);
            fixed.fill_with(|| next(&mut table));
            own.fill_with(|| next(&mut state));
            words.0[ORDER + number] = next(&mut table);
        }
        words
    }

    /// The table's words, of all places.
    pub fn table(&self) -> Vec<u64> {
        let mut table = vec![self.0[MAGNITUDE], self.0[COUNT]];
        for number in 0..PARTS {
            table.extend_from_slice(&self.part(number)[..LOCAL]);
            table.push(self.0[ORDER + number]);
        }
        table
    }

    /// The state's words, of all places.
    pub fn state(&self) -> Vec<u64> {
        let mut state = vec![self.0[T], self.0[N]];
        for number in 0..PARTS {
            state.extend_from_slice(&self.part(number)[LOCAL..]);
        }
        state
    }

    /// A part's words.
    pub fn part(&self, number: usize) -> &[u64] {
        &self.0[FIRST_PART + PART_WORDS * number..][..PART_WORDS]
    }

    /// A part's words, to be altered.
    pub fn part_mut(&mut self, number: usize) -> &mut [u64] {
        &mut self.0[FIRST_PART + PART_WORDS * number..][..PART_WORDS]
    }

    /// How many parts are in use, of a model that has no more than there is room for.
    pub fn count(&self) -> usize {
        self.0[COUNT] as usize
    }

    /// Writes a model into the places that it uses. The others stay.
    pub fn put(&mut self, model: &Model) {
        self.0[MAGNITUDE] = model.default_magnitude.into();
        self.0[COUNT] = model.parts.len() as u64;
        self.0[T] = model.point.t;
        self.0[N] = model.point.n.into();
        for (at, &number) in model.order.iter().enumerate() {
            self.0[ORDER + at] = number.into();
        }
        for (number, part) in model.parts.iter().enumerate() {
            put_part(self.part_mut(number), part);
        }
    }

    /// The words with 0 in those of a part that are free: the value of an absent signal, and the spans after the count.
    pub fn plain(&self) -> Words {
        let mut words = self.clone();
        for number in 0..PARTS {
            let part = words.part_mut(number);
            for signal in [SIGNAL, OUTPUT] {
                if part[signal] == 0 {
                    part[signal + 1] = 0;
                }
            }
            let spans = part[SPAN_COUNT].min(SPANS as u64) as usize;
            part[FIRST_SPAN + spans..PORT].fill(0);
        }
        words
    }

    /// Whether a part's words are codes of cases and numbers that fit their fields.
    pub fn part_spelled(&self, number: usize) -> bool {
        let part = self.part(number);
        let within = |from: usize, to: usize, most: u64| part[from..to].iter().all(|&word| word <= most);
        // The places for spans that no span is in are free.
        let spans = part[SPAN_COUNT].min(SPANS as u64) as usize;
        part[KIND] < KINDS as u64
            && part[PREFERENCE] <= 0xFF
            && part[P] <= 0xFFFF_FFFF
            && within(FIRST_SPAN, FIRST_SPAN + spans, 0xFFFF_FFFF)
            && within(PORT, RATIO, 0x1_0000)
            && part[SIGNAL] < 2
            && part[OUTPUT] < 2
            && within(SIDE, MARK + 1, 2)
    }

    /// Whether the words, all of which are there, spell a model.
    pub fn spelled(&self) -> bool {
        self.0[MAGNITUDE] <= 0xFF
            && self.0[COUNT] <= PARTS as u64
            && (0..self.count()).all(|number| self.part_spelled(number) && self.0[ORDER + number] <= 0xFFFF)
    }

    /// The model that the words mean, or none if they spell none or the second implementation's types cannot say it.
    /// Then it is unsound: more spans than there is room for, spans of a part that is no drive, an operand that its
    /// kind does not name and that is not 0, or a number far out of its range.
    pub fn model(&self) -> Option<Model> {
        let count = self.spelled().then(|| self.count())?;
        let order = self.0[ORDER..][..count].iter().map(|&number| u8::try_from(number).ok());
        Some(Model {
            default_magnitude: self.0[MAGNITUDE] as u8,
            parts: (0..count).map(|number| part_of(self.part(number))).collect::<Option<_>>()?,
            order: order.collect::<Option<_>>()?,
            point: Point { t: self.0[T], n: u16::try_from(self.0[N]).ok()? },
        })
    }
}

/// A signed number as a word.
fn signed(x: i32) -> u64 {
    i64::from(x) as u64
}

/// A side's code.
fn side_code(side: Option<Side>) -> u64 {
    match side {
        None => 0,
        Some(Side::Negative) => 1,
        Some(Side::Positive) => 2,
    }
}

/// Puts a part's words.
fn put_part(words: &mut [u64], part: &Part) {
    let (kind, a, b, p) = part.kind.operands();
    words[KIND] = kind.into();
    words[PREFERENCE] = part.preference.map_or(NO_PREFERENCE, u64::from);
    (words[A], words[B], words[P]) = (signed(a), signed(b), p.into());
    let spans = if let Kind::Drive { spans, .. } = &part.kind { &spans[..] } else { &[] };
    words[SPAN_COUNT] = spans.len() as u64;
    for (at, &span) in spans.iter().enumerate() {
        words[FIRST_SPAN + at] = span.into();
    }
    for (port, source) in part.inputs.iter().enumerate() {
        words[PORT + port] = source.map_or(0, |source| u64::from(source) + 1);
    }
    words[RATIO] = part.ratio;
    words[LOCAL] = part.local;
    words[HELD] = signed(part.held);
    words[SPEED] = signed(part.speed);
    for (at, signal) in [(SIGNAL, part.kept), (OUTPUT, part.output)] {
        (words[at], words[at + 1]) = signal.map_or((0, 0), |value| (1, signed(value)));
    }
    words[SIDE] = side_code(part.side);
    // A mark says where the input went: up is 1, down is 2.
    words[MARK] = match part.mark {
        None => 0,
        Some(Side::Positive) => 1,
        Some(Side::Negative) => 2,
    };
}

/// A number that the second implementation's types hold.
fn value(words: &[u64], at: usize) -> Option<i32> {
    i32::try_from(words[at] as i64).ok()
}

/// A part's kind with its operands and spans; none where an operand that the kind does not name is not 0, or a part
/// that is no drive has spans.
fn kind_of(words: &[u64]) -> Option<Kind> {
    let (a, b, p) = (value(words, A)?, value(words, B)?, words[P] as u32);
    let spans = usize::try_from(words[SPAN_COUNT]).ok().filter(|&spans| spans <= SPANS)?;
    let spans: Vec<u32> = words[FIRST_SPAN..][..spans].iter().map(|&span| span as u32).collect();
    if words[KIND] != 11 && !spans.is_empty() {
        return None;
    }
    let (kind, unnamed) = match words[KIND] {
        0 => (Kind::Constant { a }, (0, b, p)),
        1 => (Kind::Gain { a }, (0, b, p)),
        2 => (Kind::Adder, (a, b, p)),
        3 => (Kind::Square { a, b, p }, (0, 0, 0)),
        4 => (Kind::Pulse { a, p }, (0, b, 0)),
        5 => (Kind::Delay, (a, b, p)),
        6 => (Kind::Integrator { a }, (0, b, p)),
        7 => (Kind::ResetIntegrator { a }, (0, b, p)),
        8 => (Kind::Detector { p }, (a, b, 0)),
        9 => (Kind::Hold, (a, b, p)),
        10 => (Kind::Sampler, (a, b, p)),
        11 => (Kind::Drive { a, spans }, (0, b, p)),
        _ => (Kind::Clapper { a, b }, (0, 0, p)),
    };
    (unnamed == (0, 0, 0)).then_some(kind)
}

/// The part that words mean; none where the second implementation cannot say it.
fn part_of(words: &[u64]) -> Option<Part> {
    let source = |port: usize| match words[PORT + port] {
        0 => Some(None),
        word => u8::try_from(word - 1).ok().map(Some),
    };
    let signal = |at: usize| -> Option<Signal> {
        if words[at] == 1 {
            value(words, at + 1).map(Some)
        } else {
            Some(None)
        }
    };
    Some(Part {
        kind: kind_of(words)?,
        preference: Some(words[PREFERENCE]).filter(|&own| own != NO_PREFERENCE).map(|own| own as u8),
        inputs: [source(0)?, source(1)?],
        ratio: words[RATIO],
        local: words[LOCAL],
        output: signal(OUTPUT)?,
        held: value(words, HELD)?,
        speed: value(words, SPEED)?,
        kept: signal(SIGNAL)?,
        side: [None, Some(Side::Negative), Some(Side::Positive)][words[SIDE] as usize],
        mark: [None, Some(Side::Positive), Some(Side::Negative)][words[MARK] as usize],
    })
}
