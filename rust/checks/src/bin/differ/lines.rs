//! A rehearsal as its stream and its lines tell it: the points that were reached, and what each command of the score
//! came to.

use second::{Accepted, Model, INPUT_LIMIT};

/// A point as its line shows it, with the step that led there. The start point has no line.
pub struct Line {
    pub t: u64,
    pub n: u64,
    pub step: u64,
    pub revisions: u64,
    pub outputs: Vec<Option<i64>>,
}

impl Line {
    /// The start point.
    fn start(model: &Model) -> Line {
        let outputs = model.parts.iter().map(|part| part.output.map(i64::from)).collect();
        Line { t: 0, n: 0, step: 0, revisions: 0, outputs }
    }

    /// The point of a line that tells of no refusal.
    fn read(line: &str) -> Line {
        let mut words = line.split(' ');
        let mut number = || words.next().and_then(|word| word.parse().ok()).unwrap_or(0);
        let (t, n, step, _rounds, revisions) = (number(), number(), number(), number(), number());
        Line { t, n, step, revisions, outputs: words.map(|word| word.parse().ok()).collect() }
    }

    /// What a part reads at a port that is wired to `source`.
    pub fn input(&self, source: Option<u8>) -> Option<i64> {
        self.outputs[usize::from(source?)]
    }
}

/// A command of the score: its wanted step, the number of the point where it began, and the number that refused it.
pub struct Call {
    pub wanted: u32,
    pub at: usize,
    pub refused: Option<u8>,
}

/// What was printed for an accepted stream.
pub struct Played {
    /// The start point, and the point of each line.
    pub points: Vec<Line>,
    pub calls: Vec<Call>,
}

/// The bytes of a command of the score, and the first of them.
const COMMAND: usize = 5;
const WANTED: u8 = 6;

impl Played {
    /// What the lines of an accepted stream tell. A command that is refused itself is no call.
    pub fn read(accepted: &Accepted, stream: &[u8], lines: &str) -> Played {
        let mut played = Played { points: vec![Line::start(&accepted.model)], calls: Vec::new() };
        let score = &stream[accepted.end..stream.len().min(INPUT_LIMIT)];
        for (command, line) in score.chunks_exact(COMMAND).zip(lines.lines()) {
            let &[WANTED, first, second, third, fourth] = command else { break };
            let at = played.points.len() - 1;
            let refused = line.strip_prefix("refused ").map(|number| number.parse().unwrap_or(0));
            if refused.is_none() {
                played.points.push(Line::read(line));
            }
            let wanted = u32::from_le_bytes([first, second, third, fourth]);
            played.calls.push(Call { wanted, at, refused });
        }
        played
    }

    /// The line of a call that was committed.
    pub fn line(&self, call: &Call) -> Option<&Line> {
        if call.refused.is_some() {
            return None;
        }
        self.points.get(call.at + 1)
    }
}
