//! A soak: the exported calls of the static library and the second implementation in one process, for a long time.
//!
//!     soak [--minutes M] [--streams N] [--lists N] [--seed S]
//!     soak --stream NUMBER | --list NUMBER [--seed S]
//!
//! Streams are whole tables with their scores, damaged ones, and commands or bytes at random. Each is loaded by both;
//! the score of an accepted one is played by both, and its table saved. Lists of calls load a stream, alter the words
//! of its model, and advance, preview, save and print it, in the ways of `calls`. So many streams and lists
//! are tried, or for so many minutes ten streams for each list; without an option for a minute. It prints counts, or
//! the first difference with what makes it again, and the status is then 1. Each minute it tells on standard error
//! how far it is.

mod streams;

use calls::coverage::Coverage;
use calls::lists::{list, Last};
use cases::random::Random;
use cases::{generate, hexadecimal, options};
use std::process::ExitCode;
use std::time::{Duration, Instant};
use streams::Streams;

/// Up to how many steps a list plays before its first alteration, and how many it makes.
const STEPS: usize = 3;
const ALTERATIONS: usize = 3;

/// How many streams there are for each list where neither is counted.
const STREAMS_OF_A_LIST: u64 = 10;

/// How much is tried: so many streams and lists, or both until a time, or one stream or list alone.
enum Extent {
    Counted([u64; 2]),
    Timed(Duration),
    Stream(u64),
    List(u64),
}

struct Arguments {
    extent: Extent,
    seed: u64,
}

/// The arguments of the program; none where they are not its options.
fn arguments() -> Option<Arguments> {
    let names = ["--minutes", "--streams", "--lists", "--seed", "--stream", "--list"];
    let [minutes, streams, lists, seed, stream, list] = options::numbers(std::env::args().skip(1), names)?;
    let extent = match (minutes, streams.is_some() || lists.is_some(), stream, list) {
        (None, true, None, None) => Extent::Counted([streams, lists].map(|count| count.unwrap_or(0))),
        (minutes, false, None, None) => Extent::Timed(Duration::from_secs(60 * minutes.unwrap_or(1))),
        (None, false, Some(number), None) => Extent::Stream(number),
        (None, false, None, Some(number)) => Extent::List(number),
        _ => return None,
    };
    Some(Arguments { extent, seed: seed.unwrap_or(1) })
}

/// What was tried so far.
struct Soak {
    seed: u64,
    start: Instant,
    streams: Streams,
    lists: u64,
    coverage: Coverage,
}

impl Soak {
    /// Tries the stream with a number.
    fn stream(&mut self, number: u64) -> Result<(), String> {
        let mut random = Random::of_case(self.seed, number);
        let (sort, stream) = streams::made(&mut random);
        self.streams.rehearsed(sort, &stream, &mut random).map_err(|what| {
            let bytes = hexadecimal(&stream);
            format!(
                "stream {number} of seed {0} differs: {what}\nsoak --seed {0} --stream {number}\n{bytes}",
                self.seed
            )
        })
    }

    /// Tries the list with a number.
    fn list(&mut self, number: u64) -> Result<(), String> {
        let mut random = Random::of_case(!self.seed, number);
        let mut last = Last::default();
        let stream = generate::made(&mut random);
        self.lists += 1;
        list(&stream, STEPS, ALTERATIONS, &mut random, &mut self.coverage, &mut last).map_err(|what| {
            format!("list {number} of seed {0} differs: {what}\nsoak --seed {0} --list {number}\n{last}", self.seed)
        })
    }

    /// Tries streams and lists by turns, so that both end together, up to these counts or to a time.
    fn run(&mut self, counts: [u64; 2], until: Option<Duration>) -> Result<(), String> {
        let [streams, lists] = counts;
        let mut told = 0;
        let (mut stream, mut list) = (0, 0);
        while stream < streams || list < lists {
            if list >= lists
                || stream < streams && u128::from(stream) * u128::from(lists) <= u128::from(list) * u128::from(streams)
            {
                self.stream(stream)?;
                stream += 1;
            } else {
                self.list(list)?;
                list += 1;
            }
            if (stream + list) % 64 == 0 {
                let passed = self.start.elapsed();
                if until.is_some_and(|until| passed >= until) {
                    break;
                }
                if passed.as_secs() / 60 > told {
                    told = passed.as_secs() / 60;
                    eprintln!("soak: {told} min: {stream} streams and {list} lists");
                }
            }
        }
        Ok(())
    }
}

/// One line of figures, or what differs.
fn soak(arguments: &Arguments) -> Result<String, String> {
    let streams = Streams::default();
    let mut soak =
        Soak { seed: arguments.seed, start: Instant::now(), streams, lists: 0, coverage: Coverage::default() };
    match arguments.extent {
        Extent::Counted(counts) => soak.run(counts, None)?,
        Extent::Timed(until) => soak.run([u64::MAX, u64::MAX / STREAMS_OF_A_LIST], Some(until))?,
        Extent::Stream(number) => soak.stream(number)?,
        Extent::List(number) => soak.list(number)?,
    }
    Ok(format!(
        "soak: seed {} in {:.0} s, nothing differs: {}; {} lists of {}",
        soak.seed,
        soak.start.elapsed().as_secs_f64(),
        soak.streams.figures(),
        soak.lists,
        soak.coverage.calls()
    ))
}

fn main() -> ExitCode {
    let Some(arguments) = arguments() else {
        eprintln!("usage: soak [--minutes M] [--streams N] [--lists N] [--stream NUMBER] [--list NUMBER] [--seed S]");
        return ExitCode::from(2);
    };
    match soak(&arguments) {
        Ok(figures) => {
            println!("{figures}");
            ExitCode::SUCCESS
        }
        Err(what) => {
            println!("soak: failed: {what}");
            ExitCode::FAILURE
        }
    }
}
