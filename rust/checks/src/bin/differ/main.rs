//! Compares other programs with the library, byte by byte, on named cases and on random ones with a purpose: one that
//! rehearses a stream, one that saves its table, and one that prints the sheet. Every saved table is loaded again by
//! both.
//!
//!     differ REHEARSE SAVETABLE PRINTSHEET [--cases N] [--seed S] [--only NUMBER] [--unnamed 1]
//!
//! Case NUMBER of seed S is the same everywhere. --unnamed 1 leaves the named and the swept ones out, without which
//! not all is reached. What differs is printed with its seed, number and bytes. The status is 0 only if nothing
//! differs and, unless some were left out, the cases reached all they should.

mod clappers;
mod commands;
mod coverage;
mod ends;
mod last;
mod lines;
mod program;
mod saves;
mod scores;
mod sheets;
mod zeros;

use cases::named::{self, Named};
use cases::random::Random;
use cases::{generate, hexadecimal, options, swept};
use coverage::Coverage;
use program::{Program, Programs};
use std::process::ExitCode;
use std::sync::atomic::{AtomicBool, AtomicU64, Ordering};
use std::sync::Mutex;
use std::time::Instant;

const THREADS: usize = 2;

struct Arguments {
    rehearse: String,
    savetable: String,
    printsheet: String,
    cases: u64,
    seed: u64,
    only: Option<u64>,
    unnamed: bool,
}

/// The arguments of the program; none where they are not its own.
fn arguments() -> Option<Arguments> {
    let mut given = std::env::args().skip(1);
    let (rehearse, savetable, printsheet) = (given.next()?, given.next()?, given.next()?);
    let [cases, seed, only, unnamed] = options::numbers(given, ["--cases", "--seed", "--only", "--unnamed"])?;
    let (cases, seed) = (cases.unwrap_or(20_000), seed.unwrap_or(1));
    Some(Arguments { rehearse, savetable, printsheet, cases, seed, only, unnamed: unnamed == Some(1) })
}

fn main() -> ExitCode {
    let Some(arguments) = arguments() else {
        eprintln!("usage: differ REHEARSE SAVETABLE PRINTSHEET [--cases N] [--seed S] [--only NUMBER] [--unnamed 1]");
        return ExitCode::from(2);
    };
    match compare(&arguments) {
        Ok(figures) => {
            println!("{figures}");
            ExitCode::SUCCESS
        }
        Err(what) => {
            println!("{what}");
            ExitCode::FAILURE
        }
    }
}

/// One line of figures, or what went wrong.
fn compare(arguments: &Arguments) -> Result<String, String> {
    let programs = Programs {
        rehearse: Program::watched(&arguments.rehearse),
        savetable: Program::watched(&arguments.savetable),
        printsheet: Program::watched(&arguments.printsheet),
    };
    if let Some(number) = arguments.only {
        return one_case(arguments.seed, number, &programs);
    }
    let (named, swept) = if arguments.unnamed { (vec![], vec![]) } else { (named::named(), swept::swept()) };
    let start = Instant::now();
    let mut coverage = Coverage::default();
    for (ticket, case) in named.iter().enumerate() {
        named_case(case, ticket as u64, &programs, &mut coverage)?;
    }
    coverage.add(&many_cases(arguments, &programs, &swept)?);
    let seconds = start.elapsed().as_secs_f64();
    let missing = coverage.missing();
    if !arguments.unnamed && !missing.is_empty() {
        return Err(format!(
            "{} cases of seed {} reached too little: {}",
            arguments.cases,
            arguments.seed,
            missing.join("; ")
        ));
    }
    Ok(format!(
        "differ: {} named, {} swept and {} random cases of seed {} in {seconds:.1} s ({:.0} a second), \
         nothing differs: {}",
        named.len(),
        swept.len(),
        arguments.cases,
        arguments.seed,
        coverage.cases as f64 / seconds,
        coverage.figures()
    ))
}

/// One random case, with its bytes.
fn one_case(seed: u64, number: u64, programs: &Programs) -> Result<String, String> {
    let stream = stream_of(seed, number);
    match difference(programs, number, &stream, &expected(&stream), &mut Coverage::default()) {
        None => Ok(format!("{}: nothing differs\n{}", name_of(seed, number), hexadecimal(&stream))),
        Some(what) => Err(report(&name_of(seed, number), &stream, &what)),
    }
}

/// A named case: the library and the program both have to print what the document says, and to save its table and print
/// its sheet alike.
fn named_case(case: &Named, ticket: u64, programs: &Programs, coverage: &mut Coverage) -> Result<(), String> {
    if case.wrong_reading == Some(&case.expected) {
        return Err(format!("{}: the case does not tell the readings apart", case.name));
    }
    let own = expected(&case.stream);
    if own != case.expected.as_bytes() {
        return Err(format!("{}: the library differs from the document", case.name));
    }
    let Some(what) = difference(programs, ticket, &case.stream, &own, coverage) else {
        coverage.count(&case.stream, &own);
        return Ok(());
    };
    let misread = what.got.is_some() && what.got.as_deref() == case.wrong_reading.map(str::as_bytes);
    let wrong = if misread { "; this is the wrong reading" } else { "" };
    Err(format!("named case '{}': {}{wrong}\n{}", case.name, what.text, hexadecimal(&case.stream)))
}

struct Failure {
    number: u64,
    text: String,
}

/// The name and the bytes of a case: the swept ones come first, then the random ones.
fn swept_or_random(swept: &[Vec<u8>], seed: u64, number: u64) -> (String, Vec<u8>) {
    match swept.get(number as usize) {
        Some(stream) => (format!("swept case {number}"), stream.clone()),
        None => {
            let number = number - swept.len() as u64;
            (name_of(seed, number), stream_of(seed, number))
        }
    }
}

/// Tries the swept cases and the random ones.
fn many_cases(arguments: &Arguments, programs: &Programs, swept: &[Vec<u8>]) -> Result<Coverage, String> {
    let cases = swept.len() as u64 + arguments.cases;
    let next = AtomicU64::new(0);
    let stop = AtomicBool::new(false);
    let failures: Mutex<Vec<Failure>> = Mutex::new(Vec::new());
    let total = Mutex::new(Coverage::default());
    let work = || {
        let mut coverage = Coverage::default();
        // Once something differs no new cases are begun, but all earlier ones are ended: the first is found for sure.
        while !stop.load(Ordering::SeqCst) {
            let number = next.fetch_add(1, Ordering::SeqCst);
            if number >= cases {
                break;
            }
            let (name, stream) = swept_or_random(swept, arguments.seed, number);
            let output = expected(&stream);
            if let Some(what) = difference(programs, number, &stream, &output, &mut coverage) {
                let failure = Failure { number, text: report(&name, &stream, &what) };
                failures.lock().unwrap().push(failure);
                stop.store(true, Ordering::SeqCst);
            }
            coverage.count(&stream, &output);
        }
        total.lock().unwrap().add(&coverage);
    };
    let fell = std::thread::scope(|scope| {
        let workers: Vec<_> = (0..THREADS).map(|_| scope.spawn(work)).collect();
        workers.into_iter().map(|worker| worker.join()).filter(Result::is_err).count()
    });
    let mut failures = failures.into_inner().unwrap();
    failures.sort_by_key(|failure| failure.number);
    if !failures.is_empty() {
        return Err(failures.into_iter().map(|failure| failure.text).collect::<Vec<_>>().join("\n"));
    }
    let coverage = total.into_inner().unwrap();
    if fell > 0 || coverage.cases != cases {
        return Err(format!("only {} of {cases} cases were tried: {fell} threads fell", coverage.cases));
    }
    Ok(coverage)
}

/// The bytes of a random case.
fn stream_of(seed: u64, number: u64) -> Vec<u8> {
    generate::case(&mut Random::of_case(seed, number))
}

/// What the library prints.
fn expected(stream: &[u8]) -> Vec<u8> {
    let mut output = Vec::new();
    // A vector takes every write.
    let _ = second::rehearse(stream, &mut output);
    output
}

/// What differs, and what was printed where that is it.
struct Difference {
    text: String,
    got: Option<Vec<u8>>,
}

impl Difference {
    /// One that is told by its text alone.
    fn of(text: String) -> Option<Difference> {
        Some(Difference { text, got: None })
    }
}

/// What differs where a stream is rehearsed, where its table is saved and loaded again, and where its sheet is printed.
fn difference(
    programs: &Programs,
    ticket: u64,
    stream: &[u8],
    expected: &[u8],
    coverage: &mut Coverage,
) -> Option<Difference> {
    match programs.rehearse.run(ticket, stream) {
        Ok(got) if got.out != expected => {
            Some(Difference { text: first_line_that_differs(expected, &got.out), got: Some(got.out) })
        }
        Ok(got) if !got.errors.is_empty() => {
            Difference::of(format!("on standard error {}", first_line_that_differs(&[], &got.errors)))
        }
        Ok(_) => coverage
            .saves
            .difference(programs, ticket, stream, expected)
            .or_else(|| coverage.sheets.difference(programs, ticket, stream, expected)),
        Err(text) => Difference::of(text),
    }
}

/// The first line that differs: what it is, and what it should be.
fn first_line_that_differs(expected: &[u8], got: &[u8]) -> String {
    let lines = |bytes: &[u8]| -> Vec<String> {
        bytes
            .split_inclusive(|&byte| byte == b'\n')
            .map(|line| format!("{:?}", String::from_utf8_lossy(line)))
            .collect()
    };
    let (expected, got) = (lines(expected), lines(got));
    let at = expected.iter().zip(&got).take_while(|(one, other)| one == other).count();
    let line = |lines: &[String]| lines.get(at).cloned().unwrap_or("nothing".to_string());
    format!("line {} is {} instead of {}", at + 1, line(&got), line(&expected))
}

/// The name of a random case.
fn name_of(seed: u64, number: u64) -> String {
    format!("case {number} of seed {seed}")
}

/// What differs, with the bytes of the case.
fn report(name: &str, stream: &[u8], what: &Difference) -> String {
    format!("{name} differs: {}\n{}", what.text, hexadecimal(stream))
}
