//! The last part of a full table: one of each kind that shows something and changes, and what only the last part can
//! have done, since no other part of its table can do it.

use crate::coverage::add_each;
use crate::lines::{Call, Line, Played};
use cases::draft::KINDS;
use second::model::MOST_PARTS;
use second::{Kind, Model, Part};

/// How often each was seen.
#[derive(Default)]
pub struct Last {
    /// Full tables by the kind of their last part, rehearsed by at least a line.
    shown: [u64; KINDS],
    /// Lines on which the last part's output is another than on the line before, by its kind.
    changed: [u64; KINDS],
    /// What the last part did.
    deeds: [u64; DEEDS.len()],
}

const LAST: usize = MOST_PARTS - 1;

const NAMES: [&str; KINDS] = [
    "constant",
    "gain",
    "adder",
    "square",
    "pulse",
    "delay",
    "integrator",
    "reset integrator",
    "detector",
    "hold",
    "sampler",
    "drive",
    "clapper",
];

const DEEDS: [&str; 15] = [
    "square that alone is due",
    "square that alone binds",
    "pulse that alone is due",
    "pulse that alone binds",
    "delay that alone is due",
    "detector that alone is due",
    "detector that alone objects",
    "drive that alone binds",
    "drive that alone accepts nothing",
    "hold that shows what it held",
    "reset integrator that goes on from its port 1",
    "clapper that moves by its speed alone",
    "part that reads another by port 0",
    "part that reads another by port 1",
    "part that another reads",
];

impl Last {
    /// Counts what the last part of a full table did, by what was printed.
    pub fn count(&mut self, model: &Model, played: &Played) {
        if model.parts.len() != MOST_PARTS {
            return;
        }
        let (others, last) = (&model.parts[..LAST], &model.parts[LAST]);
        let kind = usize::from(last.kind.operands().0);
        let lines = &played.points[1..];
        self.shown[kind] += u64::from(!lines.is_empty());
        let changes = lines.windows(2).filter(|step| step[0].outputs[LAST] != step[1].outputs[LAST]);
        self.changed[kind] += changes.count() as u64;
        for call in &played.calls {
            self.deed(deed(others, last, call, played.line(call)));
        }
        for step in lines.windows(2) {
            self.deed(kept(last, &step[0], &step[1]));
        }
        if !lines.is_empty() {
            let is_read = others.iter().any(|part| part.inputs.contains(&Some(LAST as u8)));
            for (at, is_one) in [last.inputs[0].is_some(), last.inputs[1].is_some(), is_read].into_iter().enumerate() {
                self.deed(is_one.then_some(12 + at));
            }
        }
    }

    /// Counts a deed, if there is one.
    fn deed(&mut self, deed: Option<usize>) {
        if let Some(at) = deed {
            self.deeds[at] += 1;
        }
    }

    /// Adds what another thread counted.
    pub fn add(&mut self, other: &Last) {
        add_each(&mut self.shown, &other.shown);
        add_each(&mut self.changed, &other.changed);
        add_each(&mut self.deeds, &other.deeds);
    }

    /// Each with its name. A constant does not change.
    pub fn named(&self) -> impl Iterator<Item = (String, u64)> + '_ {
        let shown = NAMES.iter().zip(self.shown).map(|(name, count)| (name.to_string(), count));
        let changed = NAMES.iter().zip(self.changed).skip(1);
        let changed = changed.map(|(name, count)| (format!("{name} whose output changes"), count));
        let deeds = DEEDS.iter().zip(self.deeds).map(|(name, count)| (name.to_string(), count));
        shown.chain(changed).chain(deeds)
    }
}

/// What a call shows the last part to have done, since no other part can have: made a step of 0, a shorter one than was
/// wanted, a revision, or refusal 22.
fn deed(others: &[Part], last: &Part, call: &Call, line: Option<&Line>) -> Option<usize> {
    let none = |has: fn(&Kind) -> bool| !others.iter().any(|part| has(&part.kind));
    let Some(line) = line else {
        let nothing = call.refused == Some(22) && matches!(last.kind, Kind::Drive { .. }) && none(can_bind);
        return nothing.then_some(8);
    };
    let is_due = line.step == 0 && none(can_be_due);
    let binds = line.step > 0 && line.step < u64::from(call.wanted) && line.revisions == 0 && none(can_bind);
    match last.kind {
        Kind::Square { .. } if is_due => Some(0),
        Kind::Square { .. } if binds => Some(1),
        Kind::Pulse { .. } if is_due => Some(2),
        Kind::Pulse { .. } if binds => Some(3),
        Kind::Delay if is_due => Some(4),
        Kind::Detector { .. } if is_due => Some(5),
        Kind::Detector { .. } if line.revisions > 0 && none(can_object) => Some(6),
        Kind::Drive { .. } if binds => Some(7),
        _ => None,
    }
}

/// What a step shows the last part to have kept from the point before.
fn kept(last: &Part, before: &Line, after: &Line) -> Option<usize> {
    let ([x, y], [x_then, y_then]) = (ports(last, before), ports(last, after));
    match last.kind {
        Kind::Hold => (x_then.is_none() && after.outputs[LAST].is_some()).then_some(9),
        Kind::ResetIntegrator { .. } => (y.is_some() && y_then.is_none() && after.step > 0).then_some(10),
        Kind::Clapper { b: 0, .. } => (x.is_none() && before.outputs[LAST] != after.outputs[LAST]).then_some(11),
        _ => None,
    }
}

/// What a part reads at its ports.
fn ports(part: &Part, at: &Line) -> [Option<i64>; 2] {
    part.inputs.map(|source| at.input(source))
}

/// Whether a part of a kind can be due.
fn can_be_due(kind: &Kind) -> bool {
    matches!(kind, Kind::Square { .. } | Kind::Pulse { .. } | Kind::Delay | Kind::Detector { .. })
}

/// Whether a part of a kind that is not due can accept less than any step.
fn can_bind(kind: &Kind) -> bool {
    matches!(kind, Kind::Square { .. } | Kind::Pulse { .. } | Kind::Drive { .. })
}

/// Whether a part of a kind can object.
fn can_object(kind: &Kind) -> bool {
    matches!(kind, Kind::Detector { .. })
}
