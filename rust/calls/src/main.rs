//! Compares the calls `load`, `advance`, `preview`, `save` and `sheet` of the static library with the second
//! implementation, on models that no stream leads to as well: at the last tick and microstep, with any wanted step, and
//! unsound in every way.
//!
//!     calls [--calls N] [--seed S] [--only CASE] [--trace 1]
//!
//! The streams that `differ` sweeps are loaded with both. Then each case loads a generated stream, plays some steps,
//! alters the model and plays on. Every answer is compared word for word: the places in use with the second
//! implementation's model, what lies after them, which is noise, with what was lent. Where words spell no model, or
//! one that cannot be said in the second implementation's types, it is unsound, so the answer is by rule: 24, counts 0,
//! and nothing written. Each advance is previewed on the same words before it is made: the answer has to be the
//! advance's, and the new state that of the answer's model, which is the old one where the call is refused; only words
//! that spell no model leave none. Every model that is loaded or advanced is saved, into room of every sort, and
//! compared byte for byte, with what lies after. Of every accepted stream, and of some models that were moved or
//! altered, the saved bytes are loaded again by both, and saved again. Every answer of an advance and of a preview is
//! printed as a line of a sheet, and compared in the same way. What differs is printed with its seed, case and words;
//! --only repeats one case, --trace tells each case's number before it is tried. The status is 0 only if nothing
//! differs and all sorts were reached.

use calls::compared::load;
use calls::coverage::Coverage;
use calls::lists::{list, Last};
use cases::random::Random;
use cases::{generate, options, swept};
use std::process::ExitCode;
use std::time::Instant;

/// Loads a generated stream, plays it, and alters what comes of that fourteen times.
fn try_case(seed: u64, number: u64, coverage: &mut Coverage, last: &mut Last) -> Result<(), String> {
    let mut random = Random::of_case(seed, number);
    let stream = generate::case(&mut random);
    coverage.cases += 1;
    list(&stream, 8, 14, &mut random, coverage, last)
}

struct Arguments {
    calls: u64,
    seed: u64,
    only: Option<u64>,
    trace: bool,
}

/// The arguments of the program; none where they are not its options.
fn arguments() -> Option<Arguments> {
    let given = std::env::args().skip(1);
    let [calls, seed, only, trace] = options::numbers(given, ["--calls", "--seed", "--only", "--trace"])?;
    let (calls, seed) = (calls.unwrap_or(200_000), seed.unwrap_or(1));
    Some(Arguments { calls, seed, only, trace: trace == Some(1) })
}

/// What differs, with the call that was made last.
fn report(name: String, what: String, last: &Last) -> String {
    format!("{name} differs: {what}\n{last}")
}

/// One line of figures, or what went wrong.
fn compare(arguments: &Arguments) -> Result<String, String> {
    let seed = arguments.seed;
    let mut coverage = Coverage::default();
    let mut last = Last::default();
    let start = Instant::now();
    let swept = if arguments.only.is_none() { swept::swept() } else { vec![] };
    for (number, stream) in swept.iter().enumerate() {
        last = Last::Load(stream.clone());
        load(stream, &mut Random::of_case(seed, number as u64), &mut coverage)
            .map_err(|what| report(format!("swept stream {number} of seed {seed}"), what, &last))?;
    }
    let mut number = arguments.only.unwrap_or(0);
    loop {
        if arguments.trace {
            eprintln!("case {number} of seed {seed}");
        }
        try_case(seed, number, &mut coverage, &mut last)
            .map_err(|what| report(format!("case {number} of seed {seed}"), what, &last))?;
        if arguments.only.is_some() {
            return Ok(format!("case {number} of seed {seed}: nothing differs"));
        }
        number += 1;
        if coverage.loads + coverage.advances >= arguments.calls {
            break;
        }
    }
    let missing = coverage.missing();
    if !missing.is_empty() {
        return Err(format!("{number} cases of seed {seed} reached too little: {}", missing.join("; ")));
    }
    let seconds = start.elapsed().as_secs_f64();
    Ok(format!(
        "calls: {} swept streams and {number} cases of seed {seed} in {seconds:.1} s, nothing differs: {}",
        swept.len(),
        coverage.figures()
    ))
}

fn main() -> ExitCode {
    let Some(arguments) = arguments() else {
        eprintln!("usage: calls [--calls N] [--seed S] [--only CASE] [--trace 1]");
        return ExitCode::from(2);
    };
    match compare(&arguments) {
        Ok(figures) => {
            println!("{figures}");
            ExitCode::SUCCESS
        }
        Err(what) => {
            println!("calls: failed: {what}");
            ExitCode::FAILURE
        }
    }
}
