//! Reading a table's bytes into a model.

use crate::advance::fill_start;
use crate::model::{
    is_count, is_value, ratio, Kind, Model, Part, Point, LARGEST_MAGNITUDE, MOST_PARTS, MOST_SPANS, NO_PREFERENCE,
};
use crate::order::order;
use std::fmt;

/// Why a stream was refused, and the position of the command at fault.
#[derive(Clone, Copy, Debug, PartialEq, Eq)]
pub struct Refusal {
    pub number: u8,
    pub position: usize,
}

impl fmt::Display for Refusal {
    /// As the programs say it.
    fn fmt(&self, f: &mut fmt::Formatter) -> fmt::Result {
        write!(f, "refused {} at {}", self.number, self.position)
    }
}

/// A fresh model, and the position after End, where the score begins.
#[derive(Clone, Debug, PartialEq, Eq)]
pub struct Accepted {
    pub model: Model,
    pub end: usize,
}

pub type Loaded = Result<Accepted, Refusal>;

// The bytes of the commands.
pub(crate) const BEGIN: u8 = 1;
pub(crate) const PART: u8 = 2;
pub(crate) const SPAN: u8 = 3;
pub(crate) const WIRE: u8 = 4;
pub(crate) const END: u8 = 5;
const WANTED: u8 = 6;

// The numbers of the refusals.
pub(crate) const CUT: u8 = 1;
const UNKNOWN_COMMAND: u8 = 2;
const OUT_OF_PLACE: u8 = 3;
const OUT_OF_RANGE: u8 = 5;
const TOO_MANY: u8 = 6;
const UNKNOWN_PART_OR_PORT: u8 = 7;
const ALREADY_WIRED: u8 = 8;
const NO_PARTS: u8 = 9;
const PERIOD_TOO_LONG: u8 = 10;
const LOOP: u8 = 11;
const SPAN_NOT_ABOVE: u8 = 12;

/// A command's operands, all there.
enum Command {
    Begin(u8),
    Part { kind: u8, preference: u8, a: i32, b: i32, p: u32 },
    Span(u32),
    Wire { source: u8, reader: u8, port: u8 },
    End,
}

impl Command {
    /// The operands that follow `code`, and the bytes after them; none if they are cut.
    fn read(code: u8, rest: &[u8]) -> Option<(Command, &[u8])> {
        Some(match code {
            BEGIN => {
                let (&[e], rest) = rest.split_first_chunk()?;
                (Command::Begin(e), rest)
            }
            PART => {
                let (&[kind, preference], rest) = rest.split_first_chunk()?;
                let (&a, rest) = rest.split_first_chunk()?;
                let (&b, rest) = rest.split_first_chunk()?;
                let (&p, rest) = rest.split_first_chunk()?;
                let (a, b, p) = (i32::from_le_bytes(a), i32::from_le_bytes(b), u32::from_le_bytes(p));
                (Command::Part { kind, preference, a, b, p }, rest)
            }
            SPAN => {
                let (&span, rest) = rest.split_first_chunk()?;
                (Command::Span(u32::from_le_bytes(span)), rest)
            }
            WIRE => {
                let (&[source, reader, port], rest) = rest.split_first_chunk()?;
                (Command::Wire { source, reader, port }, rest)
            }
            _ => (Command::End, rest),
        })
    }
}

/// A part without wires or spans, if kind, preference and operands are ones that the table allows.
fn part(kind: u8, preference: u8, a: i32, b: i32, p: u32) -> Option<Part> {
    let (kind, names_a, names_b, names_p) = match kind {
        0 => (Kind::Constant { a }, true, false, false),
        1 => (Kind::Gain { a }, true, false, false),
        2 => (Kind::Adder, false, false, false),
        3 => (Kind::Square { a, b, p }, true, true, true),
        4 => (Kind::Pulse { a, p }, true, false, true),
        5 => (Kind::Delay, false, false, false),
        6 => (Kind::Integrator { a }, true, false, false),
        7 => (Kind::ResetIntegrator { a }, true, false, false),
        8 => (Kind::Detector { p }, false, false, true),
        9 => (Kind::Hold, false, false, false),
        10 => (Kind::Sampler, false, false, false),
        11 => (Kind::Drive { a, spans: Vec::new() }, true, false, false),
        12 => (Kind::Clapper { a, b }, true, true, false),
        _ => return None,
    };
    let preference = match preference {
        NO_PREFERENCE => None,
        own if own <= LARGEST_MAGNITUDE => Some(own),
        _ => return None,
    };
    let allowed = |named: bool, in_range: bool, zero: bool| if named { in_range } else { zero };
    (allowed(names_a, is_value(a), a == 0)
        && allowed(names_b, is_value(b), b == 0)
        && allowed(names_p, is_count(p), p == 0))
    .then(|| Part::new(kind, preference))
}

/// What is read of a table.
#[derive(Default)]
struct Reading {
    default_magnitude: Option<u8>,
    parts: Vec<Part>,
    span_may_follow: bool,
}

impl Reading {
    /// The command at the front of these bytes and the bytes after it, or the number of its refusal: where it is not
    /// known, not in its place or not whole.
    fn command<'a>(&self, bytes: &'a [u8]) -> Result<(Command, &'a [u8]), u8> {
        let Some((&code, operands)) = bytes.split_first() else {
            return Err(CUT);
        };
        if !(BEGIN..=WANTED).contains(&code) {
            return Err(UNKNOWN_COMMAND);
        }
        let in_place = match code {
            BEGIN => self.default_magnitude.is_none(),
            WANTED => false,
            SPAN => self.span_may_follow,
            _ => self.default_magnitude.is_some(),
        };
        if !in_place {
            return Err(OUT_OF_PLACE);
        }
        let Some(read) = Command::read(code, operands) else {
            return Err(CUT);
        };
        Ok(read)
    }

    /// Takes a command into the table, or tells the number of its refusal; End changes nothing of the table.
    fn take(&mut self, command: Command) -> Result<(), u8> {
        self.span_may_follow = false;
        match command {
            Command::Begin(e) => self.take_begin(e),
            Command::Part { kind, preference, a, b, p } => self.take_part(kind, preference, a, b, p),
            Command::Span(span) => self.take_span(span),
            Command::Wire { source, reader, port } => self.take_wire(source, reader, port),
            Command::End => Ok(()),
        }
    }

    /// Begin, with the default magnitude.
    fn take_begin(&mut self, e: u8) -> Result<(), u8> {
        if e > LARGEST_MAGNITUDE {
            return Err(OUT_OF_RANGE);
        }
        self.default_magnitude = Some(e);
        Ok(())
    }

    /// A Part with these operands.
    fn take_part(&mut self, kind: u8, preference: u8, a: i32, b: i32, p: u32) -> Result<(), u8> {
        if self.parts.len() == MOST_PARTS {
            return Err(TOO_MANY);
        }
        let Some(part) = part(kind, preference, a, b, p) else {
            return Err(OUT_OF_RANGE);
        };
        self.span_may_follow = matches!(part.kind, Kind::Drive { .. });
        self.parts.push(part);
        Ok(())
    }

    /// A Span of the last part.
    fn take_span(&mut self, span: u32) -> Result<(), u8> {
        let Some(Part { kind: Kind::Drive { spans, .. }, .. }) = self.parts.last_mut() else {
            return Err(OUT_OF_PLACE);
        };
        if spans.len() == MOST_SPANS {
            return Err(TOO_MANY);
        }
        if !is_count(span) {
            return Err(OUT_OF_RANGE);
        }
        if spans.last().is_some_and(|&before| span <= before) {
            return Err(SPAN_NOT_ABOVE);
        }
        spans.push(span);
        self.span_may_follow = true;
        Ok(())
    }

    /// A Wire into a port of the part `reader`.
    fn take_wire(&mut self, source: u8, reader: u8, port: u8) -> Result<(), u8> {
        let port = usize::from(port);
        let count = self.parts.len();
        let Some(reader) = self.parts.get_mut(usize::from(reader)) else {
            return Err(UNKNOWN_PART_OR_PORT);
        };
        if usize::from(source) >= count || port >= reader.kind.ports() {
            return Err(UNKNOWN_PART_OR_PORT);
        }
        if reader.inputs[port].is_some() {
            return Err(ALREADY_WIRED);
        }
        reader.inputs[port] = Some(source);
        Ok(())
    }
}

/// Reads a table up to its End and makes the fresh model.
pub fn load(stream: &[u8]) -> Loaded {
    let mut table = Reading::default();
    let mut rest = stream;
    loop {
        let position = stream.len() - rest.len();
        let refused = |number| Refusal { number, position };
        let (command, behind) = table.command(rest).map_err(refused)?;
        rest = behind;
        if let Command::End = command {
            let model = finish(table.default_magnitude.unwrap_or(0), table.parts).map_err(refused)?;
            return Ok(Accepted { model, end: stream.len() - rest.len() });
        }
        table.take(command).map_err(refused)?;
    }
}

/// What End does: ratios, the order and the start point.
fn finish(default_magnitude: u8, parts: Vec<Part>) -> Result<Model, u8> {
    let mut model = Model { default_magnitude, parts, order: Vec::new(), point: Point::START };
    if model.parts.is_empty() {
        return Err(NO_PARTS);
    }
    let magnitude = model.magnitude();
    for part in &mut model.parts {
        part.ratio = ratio(magnitude, part.preference);
    }
    if model.parts.iter().any(|part| part.kind.p().is_some_and(|p| !part.is_period(p))) {
        return Err(PERIOD_TOO_LONG);
    }
    model.order = order(&model.parts).ok_or(LOOP)?;
    fill_start(&mut model);
    Ok(model)
}

/// The next command of a score at `position`: its wanted step and the position after it, or none at the stream's end.
pub fn wanted(stream: &[u8], position: usize) -> Result<Option<(u32, usize)>, Refusal> {
    let refused = |number| Err(Refusal { number, position });
    match stream.get(position..).unwrap_or(&[]).split_first() {
        None => Ok(None),
        Some((&WANTED, operands)) => match operands.first_chunk() {
            Some(&w) => Ok(Some((u32::from_le_bytes(w), position + 5))),
            None => refused(CUT),
        },
        Some((BEGIN..=END, _)) => refused(OUT_OF_PLACE),
        Some(_) => refused(UNKNOWN_COMMAND),
    }
}
