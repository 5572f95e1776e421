//! One advance: the search for a step, the trial, and the commitment.

use crate::model::{Kind, Model, Part, Point, Side, Signal, LAST_MICROSTEP, LAST_TICK, MOST_PARTS, VALUE_LIMIT};

pub const LARGEST_WANTED: u64 = 1_000_000_000;

/// What a call gives back; `number` is 0 if a step was committed.
#[derive(Clone, Debug, PartialEq, Eq)]
pub struct Answer {
    pub model: Model,
    pub number: u8,
    pub step: u64,
    pub rounds: u32,
    pub revisions: u32,
    pub ceiling: u64,
}

/// An answer without its model.
#[derive(Clone, Copy, Debug, Default, PartialEq, Eq)]
pub struct Outcome {
    pub number: u8,
    pub step: u64,
    pub rounds: u32,
    pub revisions: u32,
    pub ceiling: u64,
}

/// Advances any model, sound or not, by at most `w`.
pub fn advance(mut model: Model, w: u64) -> Answer {
    let Outcome { number, step, rounds, revisions, ceiling } = model.advance(w);
    Answer { model, number, step, rounds, revisions, ceiling }
}

impl Model {
    /// [`advance`] in place; a refused call leaves the model as it was.
    pub fn advance(&mut self, w: u64) -> Outcome {
        if !self.sound() {
            return Outcome { number: 24, ..Outcome::default() };
        }
        self.advance_sound(w)
    }

    /// [`Model::advance`] for a model known to be sound.
    pub fn advance_sound(&mut self, w: u64) -> Outcome {
        if !(1..=LARGEST_WANTED).contains(&w) {
            return Outcome { number: 20, ..Outcome::default() };
        }
        if self.point.t + w > LAST_TICK {
            return Outcome { number: 23, ..Outcome::default() };
        }
        self.run(w)
    }

    /// Searches for a step, and makes it where there is one.
    fn run(&mut self, w: u64) -> Outcome {
        let asked = self.asked();
        let mut made = Outcome { ceiling: w, ..Outcome::default() };
        let mut next = [None; MOST_PARTS];
        loop {
            let mut h = made.ceiling;
            loop {
                made.rounds += 1;
                let replies = asked.drives.iter().map(|drive| longest_of_drive(&self.parts[drive], self.point.t, h));
                let least = replies.fold(h.min(asked.limit), u64::min);
                if least == h {
                    break;
                }
                h = least;
            }
            if h == 0 && !asked.due {
                return Outcome { number: 22, ..made };
            }
            if h == 0 && self.point.n == LAST_MICROSTEP {
                return Outcome { number: 21, ..made };
            }
            let to = self.point.after(h);
            self.outputs_at(to, h, &mut next);
            if asked.detectors.iter().any(|detector| objects(&self.parts[detector], h, &next)) {
                made.revisions += 1;
                made.ceiling = h / 2;
                continue;
            }
            self.speed_up(&asked.clappers, h);
            self.commit(to, &next);
            return Outcome { step: h, ..made };
        }
    }

    /// Asks all parts once for a call. Within it they stay as they are, so that only drives need asking again.
    fn asked(&self) -> Asked {
        let Point { t, n } = self.point;
        let mut asked = Asked::nothing();
        for (number, part) in self.parts.iter().enumerate() {
            match part.kind {
                Kind::Square { p, .. } | Kind::Pulse { p, .. } => {
                    let period = part.period(p);
                    let into = t % period;
                    if into == 0 && n == 0 && t > 0 {
                        asked.due = true;
                    } else {
                        asked.limit = asked.limit.min(period - into);
                    }
                }
                Kind::Delay => asked.due |= self.read(part, 0).is_some(),
                Kind::Detector { .. } => {
                    asked.due |= part.mark.is_some();
                    asked.detectors.push(number);
                }
                Kind::Drive { .. } => asked.drives.push(number),
                Kind::Clapper { .. } => asked.clappers.push(number),
                _ => {}
            }
        }
        if asked.due {
            asked.limit = 0;
        }
        asked
    }

    /// Writes the outputs at `to`, where a step of `h` leads, into `next`.
    fn outputs_at(&self, to: Point, h: u64, next: &mut [Signal; MOST_PARTS]) {
        for number in self.order.iter().copied().map(usize::from) {
            let part = &self.parts[number];
            next[number] = output(part, to, || self.read(part, 0), || self.moved(part, h).0, next);
        }
    }

    /// What a port reads at the model's point.
    fn read(&self, part: &Part, port: usize) -> Signal {
        part.inputs[port].and_then(|source| self.parts[usize::from(source)].output)
    }

    /// The number that an integrating part holds after a step of `h`, and its speed.
    fn moved(&self, part: &Part, h: u64) -> (i32, i32) {
        let x = self.read(part, 0).unwrap_or(0);
        let d = local_step(part, self.point.t, h);
        match part.kind {
            Kind::Clapper { .. } => {
                let speed = integrated(part.speed, x, d);
                (integrated(part.held, speed, d), speed)
            }
            _ => (integrated(part.held, x, d), part.speed),
        }
    }

    /// Gives clappers the speeds that they have after a step of `h`; all else is still as before the step.
    fn speed_up(&mut self, clappers: &Numbers, h: u64) {
        for number in clappers.iter() {
            self.parts[number].speed = self.moved(&self.parts[number], h).1;
        }
    }

    /// Makes `to` the model's point, where the outputs are `next`.
    fn commit(&mut self, to: Point, next: &[Signal; MOST_PARTS]) {
        self.point = to;
        for (part, &output) in self.parts.iter_mut().zip(next) {
            part.local = part.local_at(to.t);
            part.output = output;
            match part.kind {
                // These show the number that they hold, or hold what they show.
                Kind::Integrator { .. } | Kind::ResetIntegrator { .. } | Kind::Drive { .. } | Kind::Clapper { .. } => {
                    part.held = output.unwrap_or(part.held)
                }
                Kind::Hold => part.kept = output,
                Kind::Detector { .. } => {
                    let x = port(part, 0, next);
                    part.mark = crossing(part.side, x);
                    part.side = Side::of(x).or(part.side);
                }
                _ => {}
            }
        }
    }
}

/// What a call learns from its parts before the first round.
struct Asked {
    due: bool,
    /// What the parts that are no drives accept together.
    limit: u64,
    drives: Numbers,
    detectors: Numbers,
    clappers: Numbers,
}

impl Asked {
    /// Before a part has been asked.
    fn nothing() -> Asked {
        let none = Numbers::none;
        Asked { due: false, limit: u64::MAX, drives: none(), detectors: none(), clappers: none() }
    }
}

/// The numbers of some parts.
struct Numbers {
    numbers: [u8; MOST_PARTS],
    count: usize,
}

impl Numbers {
    /// No numbers.
    fn none() -> Numbers {
        Numbers { numbers: [0; MOST_PARTS], count: 0 }
    }

    /// Puts a number after the others.
    fn push(&mut self, number: usize) {
        self.numbers[self.count] = number as u8;
        self.count += 1;
    }

    /// The numbers in their order.
    fn iter(&self) -> impl Iterator<Item = usize> + '_ {
        self.numbers[..self.count].iter().copied().map(usize::from)
    }
}

/// Fills the start point of a model whose parts are as their commands gave them.
pub(crate) fn fill_start(model: &mut Model) {
    let mut next = [None; MOST_PARTS];
    for number in model.order.iter().copied().map(usize::from) {
        let part = &model.parts[number];
        next[number] = output(part, Point::START, || None, || part.held, &next);
    }
    model.commit(Point::START, &next);
}

/// A part's output at `to`: `before` is port 0 at the point before, `held` the held number that has moved already,
/// and `now` the outputs at `to` of the parts earlier in the order.
fn output(
    part: &Part,
    to: Point,
    before: impl FnOnce() -> Signal,
    held: impl FnOnce() -> i32,
    now: &[Signal; MOST_PARTS],
) -> Signal {
    let read = |number: usize| port(part, number, now);
    match part.kind {
        Kind::Constant { a } => Some(a),
        Kind::Gain { a } => read(0).map(|x| clamp(i64::from(a) * i64::from(x))),
        Kind::Adder => match (read(0), read(1)) {
            (Some(x), Some(y)) => Some(clamp(i64::from(x) + i64::from(y))),
            (x, y) => x.or(y),
        },
        Kind::Square { a, b, p } => {
            // At microstep 0 it still shows what it showed before the tick.
            let t = if to.n == 0 { to.t.saturating_sub(1) } else { to.t };
            Some(if (t / part.period(p)).is_multiple_of(2) { a } else { b })
        }
        Kind::Pulse { a, p } => (to.n == 1 && to.t > 0 && to.t.is_multiple_of(part.period(p))).then_some(a),
        Kind::Delay if to.n > 0 => before(),
        Kind::Delay => None,
        Kind::Integrator { .. } | Kind::Drive { .. } | Kind::Clapper { .. } => Some(held()),
        Kind::ResetIntegrator { .. } => read(1).or_else(|| Some(held())),
        Kind::Detector { .. } => part.mark.map(Side::mark),
        Kind::Hold => read(0).or(part.kept),
        Kind::Sampler => read(0).filter(|_| read(1).is_some()),
    }
}

/// What a port reads where the outputs are `outputs`.
fn port(part: &Part, number: usize, outputs: &[Signal; MOST_PARTS]) -> Signal {
    part.inputs[number].and_then(|source| outputs[usize::from(source)])
}

/// Whether a step of `h` that leads to the outputs `next` makes a detector set a mark that it finds too late.
fn objects(part: &Part, h: u64, next: &[Signal; MOST_PARTS]) -> bool {
    let Kind::Detector { p } = part.kind else { return false };
    h > part.period(p) && crossing(part.side, port(part, 0, next)).is_some()
}

/// The mark that a detector sets which last saw `side` and now sees `x`.
fn crossing(side: Option<Side>, x: Signal) -> Option<Side> {
    let now = Side::of(x)?;
    (side? != now).then_some(now)
}

/// By how much a step of `h` moves a part's local count.
pub(crate) fn local_step(part: &Part, t: u64, h: u64) -> u64 {
    part.local_at(t + h) - part.local
}

/// The longest step of at most `h` that a drive accepts: `h` itself, or else the end of the highest run of ticks below
/// it on which the local count has grown by one of the spans or by nothing. The runs are tried from the highest down.
pub(crate) fn longest_of_drive(part: &Part, t: u64, h: u64) -> u64 {
    let Kind::Drive { spans, .. } = &part.kind else { return h };
    let d = local_step(part, t, h);
    let grown = spans.iter().rev().map(|&span| u64::from(span)).find(|&span| span <= d).unwrap_or(0);
    if grown == d {
        h
    } else {
        (part.local + grown + 1) * part.ratio - 1 - t
    }
}

/// A number after `d` local ticks, to which each of them adds `rate`.
fn integrated(number: i32, rate: i32, d: u64) -> i32 {
    clamp(i64::from(number) + i64::from(rate) * d as i64)
}

/// A number within the values.
fn clamp(x: i64) -> i32 {
    x.clamp(-i64::from(VALUE_LIMIT), i64::from(VALUE_LIMIT)) as i32
}
