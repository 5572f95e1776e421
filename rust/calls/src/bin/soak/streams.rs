//! One stream by both: its load, every answer of its score with the state that is then there, previews and sheet
//! lines of some, and its table's bytes.

use calls::alter::any;
use calls::compared::load_both;
use calls::coverage::numbers;
use calls::words::*;
use cases::generate;
use cases::random::Random;
use second::advance::Outcome;
use second::load::wanted;
use second::{Model, SHEET_LINE};

/// Sorts of streams.
const SORTS: [&str; 3] = ["made by the grammar", "damaged", "at random"];

/// A stream, and the number of its sort.
pub fn made(random: &mut Random) -> (usize, Vec<u8>) {
    match random.below(4) {
        0 | 1 => (0, generate::made(random)),
        2 => (1, generate::damaged(random)),
        _ => (2, generate::noisy(random)),
    }
}

/// How many steps of a score are played, but of every sixteenth all.
const STEPS: usize = 24;

/// More bytes than any table has.
const ROOM: usize = 2048;

/// How many streams and calls were tried.
pub struct Streams {
    sorts: [u64; 3],
    /// By number.
    loads: [u64; 32],
    advances: [u64; 32],
    previews: u64,
    sheets: u64,
    saves: u64,
    /// Where a model's words are put that are due.
    due: Words,
}

impl Default for Streams {
    fn default() -> Streams {
        let due = Words::none();
        Streams { sorts: [0; 3], loads: [0; 32], advances: [0; 32], previews: 0, sheets: 0, saves: 0, due }
    }
}

/// The words of a model: its table, its state, and room for the next state.
struct Lent {
    table: Vec<u64>,
    old: Vec<u64>,
    new: Vec<u64>,
}

impl Streams {
    /// Loads a stream by both, and plays and saves an accepted one.
    pub fn rehearsed(&mut self, sort: usize, stream: &[u8], random: &mut Random) -> Result<(), String> {
        self.sorts[sort] += 1;
        let (load, loaded) = load_both(stream, random)?;
        self.loads[load.code as usize % 32] += 1;
        let Some(mut model) = loaded else { return Ok(()) };
        let (mut position, new) = (load.out[1] as usize, load.state.clone());
        let mut lent = Lent { table: load.table, old: load.state, new };
        let most = if random.once_in(16) { usize::MAX } else { STEPS };
        for number in 0..most {
            let Ok(Some((w, after))) = wanted(stream, position) else { break };
            position = after;
            self.step(&mut lent, &mut model, w.into(), random).map_err(|what| format!("step {number}: {what}"))?;
        }
        self.save(&lent, &model, random)
    }

    /// Makes a step by both. Some are previewed before, and of some the line is printed after.
    fn step(&mut self, lent: &mut Lent, model: &mut Model, w: u64, random: &mut Random) -> Result<(), String> {
        let outcome = model.advance_sound(w);
        let also = random.below(8);
        if also == 0 {
            self.preview(lent, model, w, outcome).map_err(|what| format!("preview: {what}"))?;
        }
        let fill = any(random);
        // A call that makes no round is to write no state.
        let barred = outcome.rounds == 0;
        if barred {
            lent.new.fill(fill);
        }
        let mut out = [fill; 5];
        let code = dozhumek::advance_into(&lent.table, &lent.old, w, &mut lent.new, &mut out);
        self.advances[code as usize % 32] += 1;
        if code != out[0] || out != counts(outcome) {
            return Err(format!("a wanted step of {w} is answered {out:?} instead of {:?}", counts(outcome)));
        }
        if barred && lent.new.iter().any(|&word| word != fill) {
            return Err("a call that is barred writes a state".to_string());
        }
        if !barred {
            self.same_state(&lent.new, model)?;
        }
        if outcome.number == 0 {
            std::mem::swap(&mut lent.old, &mut lent.new);
        }
        if also == 1 {
            self.sheet(lent, model, outcome, random)?;
        }
        Ok(())
    }

    /// Previews a step, whose answer is to be this one, with this model.
    fn preview(&mut self, lent: &mut Lent, model: &Model, w: u64, outcome: Outcome) -> Result<(), String> {
        self.previews += 1;
        let mut out = [0; 5];
        dozhumek::preview_into(&lent.table, &lent.old, w, &mut lent.new, &mut out);
        if out != counts(outcome) {
            return Err(format!("a wanted step of {w} is answered {out:?} instead of {:?}", counts(outcome)));
        }
        self.same_state(&lent.new, model)
    }

    /// Fails unless the words of a state say what a model keeps. A word after an absent signal means nothing.
    fn same_state(&mut self, state: &[u64], model: &Model) -> Result<(), String> {
        self.due.put(model);
        let differs = || Err("the state is another one".to_string());
        if state[..HEAD] != [model.point.t, model.point.n.into()] {
            return differs();
        }
        for (number, got) in state[HEAD..].chunks(STATE_RECORD).take(model.parts.len()).enumerate() {
            let due = &self.due.part(number)[LOCAL..];
            let means =
                |at: usize| ![SIGNAL, OUTPUT].iter().any(|&signal| at == signal + 1 - LOCAL && got[at - 1] == 0);
            if got != due && (0..STATE_RECORD).any(|at| got[at] != due[at] && means(at)) {
                return differs();
            }
        }
        Ok(())
    }

    /// Prints the line of an answer by both.
    fn sheet(&mut self, lent: &Lent, model: &Model, outcome: Outcome, random: &mut Random) -> Result<(), String> {
        self.sheets += 1;
        let parts = model.parts.len() + usize::from(random.once_in(8));
        let choice = [(); 3].map(|()| random.below(parts) as u64);
        let room = SHEET_LINE + random.below(3) - 1;
        let (mut got, mut due, mut out) = ([1; SHEET_LINE + 1], [1; SHEET_LINE + 1], [0; 2]);
        dozhumek::sheet_into(&lent.table, &lent.old, &counts(outcome), choice, &mut got[..room], &mut out);
        let written = second::sheet(model, outcome.into(), choice, &mut due[..room]);
        if out != [u64::from(written.number), written.length as u64] || got != due {
            return Err(format!(
                "the sheet of parts {choice:?} into {room} bytes is answered {out:?}, or another line"
            ));
        }
        Ok(())
    }

    /// Saves the table by both.
    fn save(&mut self, lent: &Lent, model: &Model, random: &mut Random) -> Result<(), String> {
        self.saves += 1;
        let room = if random.once_in(2) { ROOM } else { random.below(ROOM) };
        let (mut got, mut due, mut out) = ([1; ROOM], [1; ROOM], [0; 2]);
        dozhumek::save_into(&lent.table, &lent.old, &mut got[..room], &mut out);
        let written = second::save(model, &mut due[..room]);
        if out != [u64::from(written.number), written.length as u64] || got != due {
            return Err(format!("the table is saved into {room} bytes with {out:?}, or as another one"));
        }
        Ok(())
    }

    /// How many streams of each sort there were, and calls by their numbers.
    pub fn figures(&self) -> String {
        let sorts: Vec<String> = SORTS.iter().zip(self.sorts).map(|(name, count)| format!("{count} {name}")).collect();
        format!(
            "{} streams, {}; loads{}; {} advances{}; {} previews, {} sheet lines and {} saves",
            self.sorts.iter().sum::<u64>(),
            sorts.join(", "),
            numbers(&self.loads),
            self.advances.iter().sum::<u64>(),
            numbers(&self.advances),
            self.previews,
            self.sheets,
            self.saves,
        )
    }
}

/// The words of an answer.
fn counts(outcome: Outcome) -> [u64; 5] {
    let Outcome { number, step, rounds, revisions, ceiling } = outcome;
    [number.into(), step, rounds.into(), revisions.into(), ceiling]
}
