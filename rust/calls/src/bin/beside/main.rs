//! Holds what the front says beside what the proved calls answer, on the differential test's streams.
//!
//!     beside [--cases N] [--seed S] [--only CASE]
//!
//! The streams that `differ` sweeps, and then so many generated ones, are loaded. Of an accepted one the score is
//! played, then wanted steps at random, and then some from ticks that no score leads to; each answer has to be the one
//! that the accepted steps and the due parts give where the call began. Every refusal is told in words: one line, about
//! what is there and not by its meaning alone. The text of an accepted stream, read again, has to give the saved
//! table and the score, the same text again, and the same lines where it is rehearsed; the explanation of any stream,
//! read as hexadecimal text, its bytes; and the lines of any stream are the second implementation's. What differs is
//! printed with its seed, case and bytes. The status is 0 only if nothing differs and all refusals were reached.

mod again;
mod coverage;
mod steps;

use cases::random::Random;
use cases::{generate, hexadecimal, options, swept};
use coverage::Coverage;
use dozhumek::{load, Refusal, RefusedAt, Score};
use front::input::Input;
use front::why::{load_refused, place_of, score_refused};
use std::process::ExitCode;
use std::time::Instant;

/// Tries a stream.
fn try_stream(stream: &[u8], random: &mut Random, coverage: &mut Coverage) -> Result<(), String> {
    let input = Input::of_bytes("stream", stream.to_vec());
    coverage.streams += 1;
    again::printed(stream)?;
    again::explained(stream)?;
    let loaded = match load(stream) {
        Ok(loaded) => loaded,
        Err(refused) => {
            let place = place_of(&input, &refused);
            if place > refused.position {
                return Err(format!("the place {place} is behind the refused command, at {}", refused.position));
            }
            return coverage.told(refused.refusal, &load_refused(&input, &refused));
        }
    };
    coverage.accepted += 1;
    let mut score = Vec::new();
    for wanted in Score::new(stream, loaded.position) {
        match wanted {
            Ok(wanted) => score.push(wanted.into()),
            Err(refused) => coverage.told(refused.refusal, &score_refused(&input, &refused))?,
        }
    }
    for refusal in [Refusal::Loop, Refusal::PeriodTooLong] {
        // Of a table that is accepted there is nothing to be told but the meaning.
        let end = RefusedAt { refusal, position: loaded.position - 1 };
        if load_refused(&input, &end) != refusal.meaning() {
            return Err(format!("an accepted table is told to be refused: {}", load_refused(&input, &end)));
        }
    }
    steps::play(&input, loaded.model.clone(), &score, random, coverage)?;
    again::written(&input, &loaded)
}

struct Arguments {
    cases: u64,
    seed: u64,
    only: Option<u64>,
}

/// The arguments of the program; none where they are not its options.
fn arguments() -> Option<Arguments> {
    let [cases, seed, only] = options::numbers(std::env::args().skip(1), ["--cases", "--seed", "--only"])?;
    Some(Arguments { cases: cases.unwrap_or(20_000), seed: seed.unwrap_or(1), only })
}

/// Tries a stream that is reported by its name.
fn try_named(name: String, stream: &[u8], random: &mut Random, coverage: &mut Coverage) -> Result<(), String> {
    try_stream(stream, random, coverage).map_err(|what| format!("{name} differs: {what}\n{}", hexadecimal(stream)))
}

/// One line of figures, or what went wrong.
fn compare(Arguments { cases, seed, only }: &Arguments) -> Result<String, String> {
    let mut coverage = Coverage::default();
    let start = Instant::now();
    let swept = if only.is_none() { swept::swept() } else { vec![] };
    for (number, stream) in swept.iter().enumerate() {
        let mut random = Random::of_case(*seed, number as u64);
        try_named(format!("swept stream {number} of seed {seed}"), stream, &mut random, &mut coverage)?;
    }
    for number in only.map_or(0..*cases, |only| only..only + 1) {
        let mut random = Random::of_case(*seed, number);
        let stream = generate::case(&mut random);
        try_named(format!("case {number} of seed {seed}"), &stream, &mut random, &mut coverage)?;
    }
    if let Some(number) = only {
        return Ok(format!("case {number} of seed {seed}: nothing differs"));
    }
    let missing = coverage.missing();
    if !missing.is_empty() {
        return Err(format!("{cases} cases of seed {seed} reached too little: {}", missing.join("; ")));
    }
    let (seconds, swept) = (start.elapsed().as_secs_f64(), swept.len());
    let figures = coverage.figures();
    Ok(format!("{swept} swept streams and {cases} cases of seed {seed} in {seconds:.1} s, nothing differs: {figures}"))
}

fn main() -> ExitCode {
    let Some(arguments) = arguments() else {
        eprintln!("usage: beside [--cases N] [--seed S] [--only CASE]");
        return ExitCode::from(2);
    };
    match compare(&arguments) {
        Ok(figures) => {
            println!("beside: {figures}");
            ExitCode::SUCCESS
        }
        Err(what) => {
            println!("beside: failed: {what}");
            ExitCode::FAILURE
        }
    }
}
