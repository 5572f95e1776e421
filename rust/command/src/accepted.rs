//! Which parts are due and which steps a part accepts where a model is, as document 01 says under "Which steps a
//! part accepts". A step of 0 every part accepts; here are the steps above it.
use dozhumek::{Kind, Mark, Model, Part, PARTS};
use std::ops::Range;

/// Steps above 0: rising closed intervals, no two of which overlap or touch.
#[derive(Clone, Debug, Default, PartialEq, Eq)]
pub struct Steps(Vec<(u64, u64)>);

impl Steps {
    /// All steps up to a ceiling.
    pub fn all(ceiling: u64) -> Steps {
        Steps::of_intervals([(1, ceiling.into())], ceiling)
    }

    /// The steps of some rising intervals that lie within 1 to a ceiling. Intervals that overlap or touch become one.
    fn of_intervals(intervals: impl IntoIterator<Item = (u128, u128)>, ceiling: u64) -> Steps {
        let mut steps: Vec<(u64, u64)> = Vec::new();
        for (low, high) in intervals {
            let (low, high) = (low.max(1), high.min(ceiling.into()));
            if low > high {
                continue;
            }
            // Both lie within the ceiling.
            let (low, high) = (low as u64, high as u64);
            match steps.last_mut() {
                Some(last) if low <= last.1.saturating_add(1) => last.1 = last.1.max(high),
                _ => steps.push((low, high)),
            }
        }
        Steps(steps)
    }

    /// The intervals, each with its least and its largest step.
    pub fn intervals(&self) -> &[(u64, u64)] {
        &self.0
    }

    /// Whether there are none.
    pub fn is_empty(&self) -> bool {
        self.0.is_empty()
    }

    /// The least step.
    pub fn least(&self) -> Option<u64> {
        self.0.first().map(|&(low, _)| low)
    }

    /// The largest step.
    pub fn largest(&self) -> Option<u64> {
        self.0.last().map(|&(_, high)| high)
    }
}

/// The steps that are in both.
pub fn meet(one: &Steps, other: &Steps) -> Steps {
    let (mut met, mut left, mut right) = (Vec::new(), one.0.iter().peekable(), other.0.iter().peekable());
    while let (Some(&&(low, high)), Some(&&(other_low, other_high))) = (left.peek(), right.peek()) {
        if low.max(other_low) <= high.min(other_high) {
            met.push((low.max(other_low), high.min(other_high)));
        }
        if high <= other_high {
            left.next();
        } else {
            right.next();
        }
    }
    Steps(met)
}

/// The numbers of a model's parts.
pub fn numbers(model: &Model) -> Range<usize> {
    0..model.count().min(PARTS as u64) as usize
}

/// The parts that are due where a model is, by their numbers.
pub fn due(model: &Model) -> Vec<usize> {
    numbers(model).filter(|&number| model.part(number).is_some_and(|part| is_due(model, &part))).collect()
}

/// Whether a part of a model is due.
fn is_due(model: &Model, part: &Part) -> bool {
    match part.kind {
        Kind::Square | Kind::Pulse => model.n() == 0 && model.t() > 0 && left_of_period(model, part) == period(part),
        Kind::Delay => {
            let source = part.port0.and_then(|source| model.part(source.into()));
            source.is_some_and(|source| source.output.is_some())
        }
        Kind::Detector => part.mark != Mark::Clear,
        _ => false,
    }
}

/// The P of a part: p of its own ticks, counted in master ticks.
pub fn period(part: &Part) -> u128 {
    u128::from(part.p) * u128::from(part.ratio)
}

/// How far it is from the model's tick to the next multiple of a part's P.
fn left_of_period(model: &Model, part: &Part) -> u128 {
    let period = period(part).max(1);
    period - u128::from(model.t()) % period
}

/// The steps of 1 to a ceiling that the part with a number accepts where the model is; none if there is no such
/// part.
pub fn accepted(model: &Model, number: usize, ceiling: u64) -> Steps {
    let Some(part) = model.part(number) else { return Steps::default() };
    if is_due(model, &part) {
        return Steps::default();
    }
    match part.kind {
        Kind::Square | Kind::Pulse => Steps::of_intervals([(1, left_of_period(model, &part))], ceiling),
        Kind::Drive => Steps::of_intervals(of_drive(model.t(), &part), ceiling),
        _ => Steps::all(ceiling),
    }
}

/// The steps at a tick in which the local count of a drive grows by 0 or by one of its spans: an interval for each.
fn of_drive(t: u64, drive: &Part) -> Vec<(u128, u128)> {
    let (t, ratio, local) = (u128::from(t), u128::from(drive.ratio), u128::from(drive.local));
    let to_count = |count: u128| count.saturating_mul(ratio).saturating_sub(t);
    let spans = drive.spans.iter().take(drive.span_count.min(drive.spans.len() as u64) as usize);
    let grown = std::iter::once(0).chain(spans.copied()).map(u128::from);
    // The count is reached with the first of these steps, and is the next one just after the last of them.
    grown.map(|d| (to_count(local + d), to_count(local + d + 1).saturating_sub(1))).collect()
}

/// The steps of 1 to a ceiling that all parts accept where the model is.
pub fn accepted_by_all(model: &Model, ceiling: u64) -> Steps {
    numbers(model).fold(Steps::all(ceiling), |steps, number| meet(&steps, &accepted(model, number, ceiling)))
}
