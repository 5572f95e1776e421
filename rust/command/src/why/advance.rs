//! Why an advance was refused.
use super::words::{counted, listed, steps};
use crate::accepted::{accepted, accepted_by_all, due, meet, numbers, period, Steps};
use crate::input::Input;
use dozhumek::{Kind, Model, Refusal, Refused, LAST_TICK, MOST_WANTED};

/// How many parts are told that bound a search, whether they matter or not, and how many pairs of parts.
const TOLD_PARTS: usize = 4;
const TOLD_PAIRS: usize = 3;

/// Why an advance of a model by a wanted step was refused, in one line. The model is the one that the call was given,
/// and kept.
pub fn advance_refused(input: &Input, model: &Model, wanted: u64, refused: &Refused) -> String {
    match refused.refusal {
        Refusal::WantedOutOfRange => format!("a wanted step is 1 to {MOST_WANTED}, not {wanted}"),
        Refusal::DueAtLastMicrostep => still_due(input, model),
        Refusal::NoStepAccepted => Search::of(input, model, wanted, refused).told(),
        Refusal::PastLastTick => past_last_tick(model, wanted),
        other => other.meaning().to_string(),
    }
}

/// The parts that are due, and why each is.
fn still_due(input: &Input, model: &Model) -> String {
    let told = |number: usize| {
        let why = match model.part(number).map(|part| part.kind) {
            Some(Kind::Delay) => "its input is present",
            Some(Kind::Detector) => "a mark is pending",
            _ => "the tick is a multiple of its P",
        };
        format!("{} ({why})", input.name(number))
    };
    let told: Vec<String> = due(model).into_iter().map(told).collect();
    let are = if told.len() == 1 { "is" } else { "are" };
    format!("{} {are} due at microstep {}, after which there is none", listed(&told, "and"), model.n())
}

/// A step that may lead past the last tick, and how much is left.
fn past_last_tick(model: &Model, wanted: u64) -> String {
    let t = model.t();
    match LAST_TICK.saturating_sub(t) {
        0 => format!("a step of {wanted} leads past tick 10^18, which is reached: no step is left"),
        left => format!("a step of {wanted} from tick {t} may lead past tick 10^18: at most {left} can be wanted"),
    }
}

/// A search for a step that found none: where, and what each part that bounds it accepts within the last ceiling.
struct Search<'a> {
    input: &'a Input,
    model: &'a Model,
    wanted: u64,
    revisions: u64,
    ceiling: u64,
    bounds: Vec<(usize, Steps)>,
}

impl<'a> Search<'a> {
    /// The search of a refused advance.
    fn of(input: &'a Input, model: &'a Model, wanted: u64, refused: &Refused) -> Search<'a> {
        let (revisions, ceiling) = (refused.answer.revisions, refused.answer.ceiling);
        Search { input, model, wanted, revisions, ceiling, bounds: bounds(model, ceiling) }
    }

    /// The whole message.
    fn told(&self) -> String {
        let none = match self.ceiling {
            1 => "a step of 1 is not accepted by all".to_string(),
            ceiling => format!("no step of 1 to {ceiling} is accepted by all"),
        };
        let alone: Vec<usize> = self.bounds.iter().filter(|(_, own)| own.is_empty()).map(|&(part, _)| part).collect();
        let why = match (alone.is_empty(), self.bounds.len() > TOLD_PARTS) {
            (true, _) => self.together(),
            (false, true) => self.each(&alone),
            (false, false) => self.each(&self.bounds.iter().map(|&(part, _)| part).collect::<Vec<_>>()),
        };
        format!("{none}{}: {why}{}", self.revised(), self.least_of_all(&alone))
    }

    /// How the ceiling came to be below the wanted step.
    fn revised(&self) -> String {
        match self.revisions {
            0 => String::new(),
            revisions => {
                let revisions = counted(revisions, "revision");
                let (objecting, ceiling, wanted) = (self.objecting(), self.ceiling, self.wanted);
                format!(" (after {revisions}, as {objecting} objected, {ceiling} of the wanted {wanted} are left)")
            }
        }
    }

    /// The detectors one of which objected to the last step that was tried: it was twice the ceiling, or one more, and
    /// above their P.
    fn objecting(&self) -> String {
        let least = 2 * u128::from(self.ceiling);
        let parts = numbers(self.model).filter_map(|number| Some((number, self.model.part(number)?)));
        let detectors =
            parts.filter(|(_, part)| part.kind == Kind::Detector && part.port0.is_some() && period(part) <= least);
        let names: Vec<String> = detectors.map(|(number, _)| self.input.name(number)).collect();
        match names.len() {
            0 => "a detector".to_string(),
            1 => names[0].clone(),
            2..=TOLD_PARTS => format!("one of {}", listed(&names, "and")),
            many => format!("one of {many} detectors"),
        }
    }

    /// What is said of parts where some of them accept no step within the ceiling.
    fn each(&self, parts: &[usize]) -> String {
        let told = parts.iter().take(TOLD_PARTS).map(|&part| self.one(part));
        let more = parts
            .len()
            .checked_sub(TOLD_PARTS + 1)
            .map(|more| format!("nor do {}", counted(more as u64 + 1, "more part")));
        told.chain(more).collect::<Vec<_>>().join("; ")
    }

    /// What is said of a part: the steps within the ceiling that it accepts, or where there are none the least above
    /// it.
    fn one(&self, part: usize) -> String {
        let (name, own) = (self.input.name(part), accepted(self.model, part, self.ceiling));
        if !own.is_empty() {
            return format!("{name} accepts {}", steps(&own));
        }
        match accepted(self.model, part, u64::MAX).least() {
            Some(least @ ..=MOST_WANTED) => format!("{name} accepts none, its least step is {least}"),
            Some(least) => format!("{name} accepts none, its least step is {least}, above all that can be wanted"),
            None if self.has_spans(part) => format!("{name} accepts none that can be wanted"),
            None => format!("{name} accepts none at all, as it has no spans"),
        }
    }

    /// Whether a part has spans.
    fn has_spans(&self, part: usize) -> bool {
        self.model.part(part).is_some_and(|part| part.span_count > 0)
    }

    /// What each part accepts, where each accepts some steps, and which do not meet. Of many parts those are told that
    /// matter.
    fn together(&self) -> String {
        let mut pairs = apart(&self.bounds);
        let more = pairs.len().saturating_sub(TOLD_PAIRS);
        pairs.truncate(TOLD_PAIRS);
        let told = match (self.bounds.len() > TOLD_PARTS, pairs.is_empty()) {
            (false, _) => self.bounds.clone(),
            (true, true) => fewest_apart(&self.bounds),
            (true, false) => {
                self.bounds.iter().filter(|(part, _)| pairs.iter().any(|pair| pair.contains(part))).cloned().collect()
            }
        };
        let accepting = told.iter().map(|(part, own)| format!("{} accepts {}", self.input.name(*part), steps(own)));
        let accepting = accepting.collect::<Vec<_>>().join(", ");
        if pairs.is_empty() {
            return format!("{accepting}; each two of these meet, but not all {}", told.len());
        }
        let mut pairs: Vec<String> =
            pairs.iter().map(|pair| pair.map(|part| self.input.name(part)).join(" and ")).collect();
        pairs.extend((more > 0).then(|| counted(more as u64, "more pair")));
        let others: String = pairs[1..].iter().map(|pair| format!(", nor do {pair}")).collect();
        format!("{accepting}; {} do not meet{others}", pairs[0])
    }

    /// The least step that all accept, where it can be wanted and is not told yet. It lies above the ceiling, and after
    /// a revision a detector has objected to such a step already.
    fn least_of_all(&self, alone: &[usize]) -> String {
        let least = accepted_by_all(self.model, MOST_WANTED).least();
        let told = alone.len() == 1 && accepted(self.model, alone[0], MOST_WANTED).least() == least;
        match least {
            Some(least) if self.revisions == 0 && !told => format!("; the least step that all accept is {least}"),
            _ => String::new(),
        }
    }
}

/// The parts that bound a search up to a ceiling, with the steps that they accept: the drives, and of the squares and
/// pulses that do not accept all, each of which accepts the steps up to some one, the first of those that accept the
/// fewest.
fn bounds(model: &Model, ceiling: u64) -> Vec<(usize, Steps)> {
    let all = Steps::all(ceiling);
    let is_drive = |part: usize| model.part(part).is_some_and(|part| part.kind == Kind::Drive);
    let parts = numbers(model).map(|number| (number, accepted(model, number, ceiling)));
    let mut bounds: Vec<(usize, Steps)> = parts.filter(|(part, steps)| is_drive(*part) || *steps != all).collect();
    let others = bounds.iter().filter(|&&(part, _)| !is_drive(part));
    let nearest = others.min_by_key(|(_, steps)| steps.largest()).map(|&(part, _)| part);
    bounds.retain(|&(part, _)| is_drive(part) || Some(part) == nearest);
    bounds
}

/// The pairs of parts of which no step is accepted by both.
fn apart(bounds: &[(usize, Steps)]) -> Vec<[usize; 2]> {
    let mut pairs = Vec::new();
    for (at, (part, own)) in bounds.iter().enumerate() {
        let apart = bounds[at + 1..].iter().filter(|(_, others)| meet(own, others).is_empty());
        pairs.extend(apart.map(|&(other, _)| [*part, other]));
    }
    pairs
}

/// Some of these parts, of which no step is accepted by all, and none of which can be left out for that.
fn fewest_apart(bounds: &[(usize, Steps)]) -> Vec<(usize, Steps)> {
    let mut fewest = bounds.to_vec();
    let mut at = 0;
    while at < fewest.len() {
        let rest = fewest.iter().enumerate().filter(|&(other, _)| other != at).map(|(_, (_, steps))| steps);
        let met = rest.fold(Steps::all(u64::MAX), |met, steps| meet(&met, steps));
        if met.is_empty() {
            fewest.remove(at);
        } else {
            at += 1;
        }
    }
    fewest
}
