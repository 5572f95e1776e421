//! Times both programs, and the library's call, on fixed workloads.
//!
//!     bench VERIFIED SECOND DIRECTORY [RUNS [WORKLOAD]]
//!
//! VERIFIED and SECOND are the programs `rehearse` and `rehearse-second`. Each workload's stream (a table and as many
//! wanted steps as 65,536 bytes hold) goes to DIRECTORY, and so does its table alone. Both programs are fed both in
//! turn, RUNS times (25); the time of an advance is the least processor time for the stream less the least for the
//! table alone, by the number of wanted steps. Prints a row for each workload. The status is 0 only if both programs
//! print the same bytes for each.

mod programs;
mod workloads;

use programs::{printed, time_of, Whose};
use second::load::wanted;
use second::{advance, load, Model};
use std::error::Error;
use std::fs;
use std::hint::black_box;
use std::io;
use std::path::{Path, PathBuf};
use std::process::ExitCode;

/// A checksum of answers, each below this number.
const MODULUS: u64 = 1_000_000_007;

/// A checksum with a number more.
fn mixed_in(checksum: u64, number: u64) -> u64 {
    (checksum * 31 + number) % MODULUS
}

/// Loads a stream and plays at most `commands` of its score: every answer's number, step, rounds, revisions and last
/// ceiling, and then the last outputs (plus 10^9; 2 × 10^9 + 1 if absent), go into a checksum that starts at 1. A
/// stream that is refused gives 0.
fn play(stream: &[u8], commands: u64, checks: bool) -> u64 {
    let Ok(accepted) = load(stream) else { return 0 };
    let (mut model, mut position) = (accepted.model, accepted.end);
    let mut checksum = 1;
    for _ in 0..commands {
        let Ok(Some((w, after))) = wanted(stream, position) else { break };
        position = after;
        let sum;
        (model, sum) = if checks { checked(model, w.into()) } else { trusted(model, w.into()) };
        checksum = mixed_in(checksum, sum);
    }
    outputs(&model).fold(checksum, mixed_in)
}

/// An advance of the public call, which tests the model first.
fn checked(model: Model, w: u64) -> (Model, u64) {
    let answer = advance(model, w);
    let counts = u64::from(answer.rounds) + u64::from(answer.revisions) + answer.ceiling;
    (answer.model, u64::from(answer.number) + answer.step + counts)
}

/// The same of a model that is known to be sound.
fn trusted(mut model: Model, w: u64) -> (Model, u64) {
    let made = model.advance_sound(w);
    let counts = u64::from(made.rounds) + u64::from(made.revisions) + made.ceiling;
    (model, u64::from(made.number) + made.step + counts)
}

/// The outputs as the checksum takes them.
fn outputs(model: &Model) -> impl Iterator<Item = u64> + '_ {
    model.parts.iter().map(|part| part.output.map_or(2_000_000_001, |x| (i64::from(x) + 1_000_000_000) as u64))
}

/// What a score does: committed steps, steps of 0, rounds and revisions.
fn character(stream: &[u8]) -> Option<(u64, [u64; 4])> {
    let accepted = load(stream).ok()?;
    let (mut model, mut position) = (accepted.model, accepted.end);
    let (mut advances, mut totals) = (0, [0; 4]);
    while let Some((w, after)) = wanted(stream, position).ok()? {
        position = after;
        let answer = advance(model, w.into());
        advances += 1;
        let committed = u64::from(answer.number == 0);
        let made = [committed, committed * u64::from(answer.step == 0), answer.rounds.into(), answer.revisions.into()];
        totals.iter_mut().zip(made).for_each(|(total, made)| *total += made);
        model = answer.model;
    }
    Some((advances, totals))
}

/// A workload on disk, and the least processor times in nanoseconds so far.
struct Timed {
    name: String,
    stream: Vec<u8>,
    parts: usize,
    advances: u64,
    /// Steps of 0, rounds and revisions.
    made: [u64; 3],
    /// The stream, and its table alone.
    files: [PathBuf; 2],
    /// By program, then by file.
    programs: [[f64; 2]; 2],
    /// The library's call and the one that leaves the test of its model out; by whether the score is played.
    calls: [[f64; 2]; 2],
}

/// Loading alone is too short to be timed once.
const LOADS: u32 = 100;

impl Timed {
    /// A workload that is loaded, played once and written to disk.
    fn new(name: String, stream: Vec<u8>, directory: &Path) -> Result<Timed, Box<dyn Error>> {
        let accepted = load(&stream).map_err(|refusal| format!("{name} is refused: {refusal:?}"))?;
        let (advances, [committed, zero, rounds, revisions]) = character(&stream).ok_or("a score is refused")?;
        if committed * 10 < advances * 9 {
            return Err(format!("{name}: only {committed} of {advances} advances commit").into());
        }
        let files = [directory.join(format!("{name}.bin")), directory.join(format!("{name}-table.bin"))];
        fs::write(&files[0], &stream)?;
        fs::write(&files[1], &stream[..accepted.end])?;
        let (parts, made) = (accepted.model.parts.len(), [zero, rounds, revisions]);
        let none = [[f64::INFINITY; 2]; 2];
        Ok(Timed { name, stream, parts, advances, made, files, programs: none, calls: none })
    }

    /// Both programs print the same.
    fn compare(&self, programs: &[String; 2]) -> Result<(), Box<dyn Error>> {
        for file in &self.files {
            if printed(&programs[0], file)? != printed(&programs[1], file)? {
                return Err(format!("the programs print different bytes for {}", file.display()).into());
            }
        }
        Ok(())
    }

    /// One run of everything.
    fn run(&mut self, programs: &[String; 2]) -> io::Result<()> {
        for (at, file) in self.files.iter().enumerate() {
            for (program, least) in programs.iter().zip(&mut self.programs) {
                least[at] = least[at].min(programs::time(program, file)?);
            }
        }
        for (checks, least) in [true, false].into_iter().zip(&mut self.calls) {
            let whole = own_time(|| play(&self.stream, self.advances, checks))?;
            let loads = own_time(|| (0..LOADS).map(|_| black_box(play(&self.stream, 0, checks))).sum())?;
            *least = [least[0].min(whole), least[1].min(loads / f64::from(LOADS))];
        }
        Ok(())
    }

    /// Its row of the printed table.
    fn row(&self) -> String {
        let of_each = |least: [f64; 2]| (least[0] - least[1]) / self.advances as f64;
        let [zero, rounds, revisions] = self.made.map(|total| total as f64 / self.advances as f64);
        let [verified, second] = self.programs.map(of_each);
        let [call, untested] = self.calls.map(of_each);
        format!(
            "{:<10} {:>5} {:>8} {zero:>6.2} {rounds:>6.2} {revisions:>7.2} {verified:>8.0} {second:>6.0} {:>6.2} \
             {call:>6.0} {untested:>8.0}",
            self.name,
            self.parts,
            self.advances,
            verified / second
        )
    }
}

/// Processor time of a run in this process, in nanoseconds.
fn own_time(run: impl FnOnce() -> u64) -> io::Result<f64> {
    let before = time_of(Whose::Own)?;
    black_box(run());
    Ok((time_of(Whose::Own)? - before).as_nanos() as f64)
}

/// Times the workloads, and prints a row for each.
fn run() -> Result<(), Box<dyn Error>> {
    let mut arguments = std::env::args().skip(1);
    let mut next = || arguments.next().ok_or("usage: bench VERIFIED SECOND DIRECTORY [RUNS [WORKLOAD]]");
    let programs = [next()?, next()?];
    let directory = next()?;
    let runs: u32 = arguments.next().map_or(Ok(25), |runs| runs.parse())?;
    let only = arguments.next();
    fs::create_dir_all(&directory)?;
    let chosen = workloads::all().into_iter().filter(|(name, _)| only.as_ref().is_none_or(|only| only == name));
    let timed: Result<Vec<Timed>, _> =
        chosen.map(|(name, stream)| Timed::new(name, stream, Path::new(&directory))).collect();
    let mut timed = timed?;
    if timed.is_empty() {
        return Err("no workload has this name".into());
    }
    for workload in &timed {
        workload.compare(&programs)?;
    }
    // All workloads take turns, so that a time in which the machine is slow touches none more than the others.
    for _ in 0..runs {
        for workload in &mut timed {
            workload.run(&programs)?;
        }
    }
    println!("workload   parts advances step 0 rounds revised verified second  ratio   call untested");
    for workload in &timed {
        println!("{}", workload.row());
    }
    Ok(())
}

fn main() -> ExitCode {
    match run() {
        Ok(()) => ExitCode::SUCCESS,
        Err(error) => {
            println!("bench: failed: {error}");
            ExitCode::FAILURE
        }
    }
}
