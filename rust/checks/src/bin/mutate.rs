//! Builds the programs with each fault of `mutations.txt` in turn and tells how soon `differ` sees it.
//!
//!     mutate [NAME]
//!     mutate --sample N [--seed S]
//!
//! Run in the workspace's directory, `rust/`, after a release build. NAME takes only the faults whose names hold it,
//! --sample N of them that the seed picks. Whatever is tried, the lines of every fault have to be found in its file.
//! The status is 0 if every fault that was tried was seen.

use cases::options;
use cases::random::Random;
use std::error::Error;
use std::fs;
use std::path::Path;
use std::process::{Command, ExitCode};
use std::time::Instant;

/// The package that the faults are put into, and where its copy is built.
const SECOND: &str = "second";
const PLACE: &str = "target/mutants";

/// The programs that `differ` compares.
const PROGRAMS: [&str; 3] = ["rehearse-second", "savetable-second", "printsheet-second"];

struct Mutation {
    name: String,
    file: String,
    old: String,
    new: String,
}

/// The faults that a text lists.
fn mutations(text: &str) -> Vec<Mutation> {
    let mut all = Vec::new();
    for block in text.split("\n== ").skip(1) {
        let mut lines = block.lines();
        let name = lines.next().unwrap_or("").to_string();
        let file = lines.next().unwrap_or("").to_string();
        let (mut old, mut new) = (Vec::new(), Vec::new());
        for line in lines {
            if let Some(line) = line.strip_prefix('-') {
                old.push(line);
            } else if let Some(line) = line.strip_prefix('+') {
                new.push(line);
            }
        }
        all.push(Mutation { name, file, old: old.join("\n"), new: new.join("\n") });
    }
    all
}

impl Mutation {
    /// The file's text with the fault in it.
    fn made(&self) -> Result<String, Box<dyn Error>> {
        let text = fs::read_to_string(Path::new(SECOND).join("src").join(&self.file))?;
        if text.matches(&self.old).count() != 1 {
            return Err(format!("{}: the lines to take out do not occur once", self.name).into());
        }
        Ok(text.replace(&self.old, &self.new))
    }
}

/// What `differ` says of the programs with this fault, or none if it sees nothing.
fn seen(mutation: &Mutation) -> Result<Option<String>, Box<dyn Error>> {
    let source = Path::new(PLACE).join("src");
    copy(Path::new(SECOND).join("src"), &source)?;
    fs::write(source.join(&mutation.file), mutation.made()?)?;
    let build = Command::new("cargo")
        .args(["build", "--quiet", "--offline", "-j1", "--release"])
        .args(PROGRAMS.iter().flat_map(|name| ["--bin", name]))
        .args(["--config", "profile.release.opt-level=1"])
        .args(["--target-dir", "target"])
        .current_dir(PLACE)
        .output()?;
    if !build.status.success() {
        return Err(format!("{}: {}", mutation.name, String::from_utf8_lossy(&build.stderr)).into());
    }
    let programs = PROGRAMS.map(|name| Path::new(PLACE).join("target/release").join(name));
    let run = Command::new("target/release/differ").args(programs).args(["--unnamed", "1"]).output()?;
    let said = String::from_utf8_lossy(&run.stdout).lines().next().unwrap_or("").to_string();
    if !run.status.success() && !said.contains(" differs: ") {
        return Err(format!("{}: differ tells of no difference: {said}", mutation.name).into());
    }
    Ok((!run.status.success()).then_some(said))
}

/// Copies a folder with all that is in it.
fn copy(from: impl AsRef<Path>, to: &Path) -> Result<(), Box<dyn Error>> {
    fs::create_dir_all(to)?;
    for entry in fs::read_dir(from)? {
        let entry = entry?;
        let to = to.join(entry.file_name());
        if entry.file_type()?.is_dir() {
            copy(entry.path(), &to)?;
        } else {
            fs::copy(entry.path(), to)?;
        }
    }
    Ok(())
}

/// Which of the faults are tried.
enum Tried {
    Named(String),
    Sample(usize, u64),
}

/// The arguments of the program; none where they are not its own.
fn arguments() -> Option<Tried> {
    let given: Vec<String> = std::env::args().skip(1).collect();
    match &given[..] {
        [] => Some(Tried::Named(String::new())),
        [name] if !name.starts_with("--") => Some(Tried::Named(name.clone())),
        _ => {
            let [sample, seed] = options::numbers(given.into_iter(), ["--sample", "--seed"])?;
            Some(Tried::Sample(usize::try_from(sample?).ok()?, seed.unwrap_or(1)))
        }
    }
}

/// The faults that are tried, in the order of the file.
fn picked(all: &[Mutation], tried: &Tried) -> Vec<usize> {
    let mut numbers: Vec<usize> = (0..all.len()).collect();
    match tried {
        Tried::Named(part) => numbers.retain(|&number| all[number].name.contains(part)),
        Tried::Sample(size, seed) => {
            Random::of_case(*seed, 0).shuffle(&mut numbers);
            numbers.truncate(*size);
            numbers.sort_unstable();
        }
    }
    numbers
}

/// Tries the faults, and prints a line for each; whether all were seen.
fn run(tried: &Tried) -> Result<bool, Box<dyn Error>> {
    let start = Instant::now();
    fs::create_dir_all(PLACE)?;
    // The copy is a workspace of its own.
    let manifest = fs::read_to_string(Path::new(SECOND).join("Cargo.toml"))? + "\n[workspace]\n";
    fs::write(Path::new(PLACE).join("Cargo.toml"), manifest)?;
    let all = mutations(&fs::read_to_string(Path::new(SECOND).join("mutations.txt"))?);
    for mutation in &all {
        mutation.made()?;
    }
    let numbers = picked(&all, tried);
    let mut missed = 0;
    for &number in &numbers {
        let mutation = &all[number];
        match seen(mutation)? {
            Some(said) => println!("seen: {}: {said}", mutation.name),
            None => {
                println!("NOT SEEN: {}", mutation.name);
                missed += 1;
            }
        }
    }
    let (tried, seconds) = (numbers.len(), start.elapsed().as_secs());
    println!("mutate: {tried} of {} faults tried in {seconds} s, {missed} not seen", all.len());
    Ok(missed == 0 && tried > 0)
}

fn main() -> ExitCode {
    let Some(tried) = arguments() else {
        eprintln!("usage: mutate [NAME] | mutate --sample N [--seed S]");
        return ExitCode::from(2);
    };
    match run(&tried) {
        Ok(true) => ExitCode::SUCCESS,
        Ok(false) => ExitCode::FAILURE,
        Err(error) => {
            println!("{error}");
            ExitCode::FAILURE
        }
    }
}
