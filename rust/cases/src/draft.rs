//! A table before it becomes bytes.

use crate::random::Random;

pub const CONSTANT: u8 = 0;
pub const GAIN: u8 = 1;
pub const ADDER: u8 = 2;
pub const SQUARE: u8 = 3;
pub const PULSE: u8 = 4;
pub const DELAY: u8 = 5;
pub const INTEGRATOR: u8 = 6;
pub const RESET: u8 = 7;
pub const DETECTOR: u8 = 8;
pub const HOLD: u8 = 9;
pub const SAMPLER: u8 = 10;
pub const DRIVE: u8 = 11;
pub const CLAPPER: u8 = 12;
pub const KINDS: usize = 13;

pub const NO_PREFERENCE: u8 = 0xFF;

/// Ports of each kind.
pub const PORTS: [u8; KINDS] = [0, 1, 2, 0, 0, 1, 1, 2, 1, 1, 2, 1, 1];

/// Whether a kind's output reads a port within a point.
pub fn is_direct(kind: u8, port: u8) -> bool {
    matches!((kind, port), (GAIN | HOLD, 0) | (ADDER | SAMPLER, 0 | 1) | (RESET, 1))
}

/// Whether a kind names operands a, b and p.
pub fn names(kind: u8) -> [bool; 3] {
    match kind {
        CONSTANT | GAIN | INTEGRATOR | RESET | DRIVE => [true, false, false],
        SQUARE => [true; 3],
        PULSE => [true, false, true],
        DETECTOR => [false, false, true],
        CLAPPER => [true, true, false],
        _ => [false; 3],
    }
}

#[derive(Clone, Debug)]
pub struct Row {
    pub kind: u8,
    pub preference: u8,
    pub a: i32,
    pub b: i32,
    pub p: u32,
    pub spans: Vec<u32>,
}

impl Row {
    /// The part command's bytes.
    pub fn bytes(&self) -> Vec<u8> {
        let mut command = vec![2, self.kind, self.preference];
        command.extend(self.a.to_le_bytes());
        command.extend(self.b.to_le_bytes());
        command.extend(self.p.to_le_bytes());
        command
    }
}

/// The command of a span.
pub fn span(span: u32) -> Vec<u8> {
    with_number(3, span)
}

/// The command of a wanted step.
pub fn wanted(w: u32) -> Vec<u8> {
    with_number(6, w)
}

/// A command that has one number.
fn with_number(code: u8, number: u32) -> Vec<u8> {
    let mut command = vec![code];
    command.extend(number.to_le_bytes());
    command
}

#[derive(Clone, Debug, Default)]
pub struct Draft {
    pub magnitude: u8,
    pub rows: Vec<Row>,
    /// Source, reader and port.
    pub wires: Vec<(usize, usize, u8)>,
}

impl Draft {
    /// Whether there is no room for so many parts more.
    pub fn is_full(&self, room: usize) -> bool {
        self.rows.len() + room > 32
    }

    /// Adds a part; its number.
    pub fn add(&mut self, kind: u8, a: i32, b: i32, p: u32) -> usize {
        self.rows.push(Row { kind, preference: NO_PREFERENCE, a, b, p, spans: Vec::new() });
        self.rows.len() - 1
    }

    /// Adds a drive with its spans; its number.
    pub fn add_drive(&mut self, a: i32, spans: Vec<u32>) -> usize {
        let number = self.add(DRIVE, a, 0, 0);
        self.rows[number].spans = spans;
        number
    }

    /// A part whose port 0 reads another.
    pub fn add_reading(&mut self, source: usize, kind: u8, a: i32, p: u32) -> usize {
        let number = self.add(kind, a, 0, p);
        self.wire(source, number, 0);
        number
    }

    /// A part of two ports, such as an adder or a sampler, that reads two others.
    pub fn add_joining(&mut self, kind: u8, source0: usize, source1: usize) -> usize {
        let number = self.add_reading(source0, kind, 0, 0);
        self.wire(source1, number, 1);
        number
    }

    /// Wires a port, unless it is wired already.
    pub fn wire(&mut self, source: usize, reader: usize, port: u8) {
        if !self.is_wired(reader, port) {
            self.wires.push((source, reader, port));
        }
    }

    /// Whether a port is wired.
    fn is_wired(&self, reader: usize, port: u8) -> bool {
        self.wires.iter().any(|wire| (wire.1, wire.2) == (reader, port))
    }

    /// Ports that no wire goes to.
    pub fn open_ports(&self) -> Vec<(usize, u8)> {
        let all = self
            .rows
            .iter()
            .enumerate()
            .flat_map(|(i, row)| (0..PORTS[usize::from(row.kind)]).map(move |port| (i, port)));
        all.filter(|&(reader, port)| !self.is_wired(reader, port)).collect()
    }

    /// A part's ratio, 10 to the magnitudes that its preference is below the master's.
    pub fn ratio(&self, number: usize) -> u64 {
        let preferences = self.rows.iter().map(|row| row.preference).filter(|&own| own != NO_PREFERENCE);
        let largest = preferences.fold(self.magnitude, u8::max);
        match self.rows[number].preference {
            NO_PREFERENCE => 1,
            own => 10u64.pow(u32::from(largest - own)),
        }
    }

    /// Gives the parts other numbers.
    pub fn renumber(&mut self, random: &mut Random) {
        let mut new: Vec<usize> = (0..self.rows.len()).collect();
        match random.below(3) {
            0 => new.reverse(),
            _ => random.shuffle(&mut new),
        }
        let mut rows = self.rows.clone();
        for (old, &number) in new.iter().enumerate() {
            rows[number] = self.rows[old].clone();
        }
        self.rows = rows;
        for (source, reader, _) in &mut self.wires {
            (*source, *reader) = (new[*source], new[*reader]);
        }
    }

    /// The table's bytes, with its wires after all parts and in their order.
    pub fn in_order(&self) -> Vec<u8> {
        let mut bytes = vec![1, self.magnitude];
        for row in &self.rows {
            bytes.extend(row.bytes());
            bytes.extend(row.spans.iter().flat_map(|&s| span(s)));
        }
        bytes.extend(self.wires.iter().flat_map(|&(source, reader, port)| [4, source as u8, reader as u8, port]));
        bytes.push(5);
        bytes
    }

    /// The table's commands up to End. Wires are after both of their parts, at once or later.
    pub fn commands(&self, random: &mut Random) -> Vec<Vec<u8>> {
        let mut wires = self.wires.clone();
        random.shuffle(&mut wires);
        let early = random.once_in(2);
        let mut commands = vec![vec![1, self.magnitude]];
        for (number, row) in self.rows.iter().enumerate() {
            commands.push(row.bytes());
            commands.extend(row.spans.iter().map(|&s| span(s)));
            let last = number + 1 == self.rows.len();
            wires.retain(|&(source, reader, port)| {
                let now = source.max(reader) <= number && (last || early && random.once_in(2));
                if now {
                    commands.push(vec![4, source as u8, reader as u8, port]);
                }
                !now
            });
        }
        commands.push(vec![5]);
        commands
    }
}
