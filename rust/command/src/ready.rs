//! Sees that what is run is there and is that of the sources. If it is not, it is proved and built first: progress goes
//! to standard error, the full log to target/front-door.log. What is older than a source is never run. One run builds
//! at a time.
use crate::crates::Crates;
use crate::failure::{Failure, UNBUILT};
use crate::home::{self, Program, ARCHIVE, BOUNDARY, CALLS, LINKED, MANIFEST};
use crate::messages::Messages;
use crate::system;
use std::env;
use std::fs::{self, File};
use std::io::{self, BufRead, BufReader, PipeReader, Read, Write};
use std::path::{Path, PathBuf};
use std::process::{Child, Command};
use std::sync::mpsc::{self, Receiver, RecvTimeoutError};
use std::thread;
use std::time::{Duration, SystemTime};

/// The log of a build, and the file whose lock a build holds.
const LOG: &str = "target/front-door.log";
const LOCK: &str = "target/front-door.lock";

/// The time between two looks at how far a build is.
const PAUSE: Duration = Duration::from_millis(200);

/// What cargo is not to hear from the environment: another archive, and other folders than the repository's.
const ELSEWHERE: [&str; 4] = ["DOZHUMEK_LIB", "CARGO_TARGET_DIR", "CARGO_BUILD_TARGET_DIR", "CARGO_BUILD_TARGET"];

/// Sees to the programs of a repository. `undone` tells what is not done where that fails.
pub struct Ready<'a> {
    pub root: &'a Path,
    pub messages: &'a mut Messages,
    undone: &'a str,
    lock: Option<File>,
    begun: bool,
}

/// What rt proves and builds: a product, what it is, why it is built, its crate, and rt's command in the crate's
/// folder.
struct Proof<'a> {
    product: &'a str,
    what: &'a str,
    why: &'a str,
    krate: &'a str,
    verb: &'a str,
}

/// A build: when it began, and the files that it writes its log into and holds the lock by.
struct Build {
    moment: SystemTime,
    log: File,
    lock: File,
}

impl<'a> Ready<'a> {
    /// Nothing is looked at yet.
    pub fn new(root: &'a Path, undone: &'a str, messages: &'a mut Messages) -> Ready<'a> {
        Ready { root, messages, undone, lock: None, begun: false }
    }

    /// Sees to a proved program.
    pub fn program(&mut self, program: Program) -> Result<(), Failure> {
        let product = program.path();
        let Some(why) = self.unproved(&product, &product)? else { return Ok(()) };
        on_path("rt", "the Rattle toolchain that builds it", &product, &why)?;
        self.lock(&product, &why)?;
        let Some(why) = self.unproved(&product, &product)? else { return Ok(()) };
        self.prove(Proof { product: &product, what: "program", why: &why, krate: program.name(), verb: "run" })
    }

    /// Sees to the command over the proved calls, and to the archive that it links. Its path from the root.
    pub fn calls(&mut self) -> Result<String, Failure> {
        let command = home::calls(self.root).ok_or_else(|| Failure::new(UNBUILT, "the command is not found"))?;
        let Some((stale, why)) = self.unlinked(&command)? else { return Ok(command) };
        on_path("cargo", "which builds it", &command, &why)?;
        if let Some(stale) = &stale {
            on_path("rt", "the Rattle toolchain that builds it", ARCHIVE, stale)?;
        }
        self.lock(&command, &why)?;
        let Some((stale, why)) = self.unlinked(&command)? else { return Ok(command) };
        if let Some(stale) = stale {
            self.prove(Proof { product: ARCHIVE, what: "library", why: &stale, krate: BOUNDARY, verb: "lib" })?;
        }
        self.compile(&command, &why)?;
        Ok(command)
    }

    /// Why the archive has to be built, and why the command has to be; none where neither has.
    fn unlinked(&self, command: &str) -> Result<Option<(Option<String>, String)>, Failure> {
        let stale = self.unproved(ARCHIVE, command)?;
        let why = self.unbuilt(command, &LINKED, command)?;
        let relinked = stale.is_some().then(|| format!("has to be linked with a new {ARCHIVE}"));
        Ok(why.or(relinked).map(|why| (stale, why)))
    }

    /// Why a product of rt has to be built; none where it is that of its sources.
    fn unproved(&self, product: &str, asked: &str) -> Result<Option<String>, Failure> {
        let sources = home::proved(self.root).map_err(|_| untold(asked))?;
        self.unbuilt(product, &sources, asked)
    }

    /// Why a product has to be built; none where it is that of its sources.
    fn unbuilt(&self, product: &str, sources: &[impl AsRef<Path>], asked: &str) -> Result<Option<String>, Failure> {
        if !is_there(&self.root.join(product)) {
            return Ok(Some("is not there".to_string()));
        }
        let untold = |_| untold(asked);
        let built = fs::metadata(self.root.join(product)).and_then(|about| about.modified()).map_err(untold)?;
        for source in sources {
            if let Some(newer) = newer_than(built, &self.root.join(source)).map_err(untold)? {
                let newer = newer.strip_prefix(self.root).unwrap_or(&newer).display().to_string();
                return Ok(Some(format!("is older than {newer}")));
            }
        }
        Ok(None)
    }

    /// Waits until no other run builds.
    fn lock(&mut self, product: &str, why: &str) -> Result<(), Failure> {
        let unwritten = |_| Failure::new(UNBUILT, format!("{}/target cannot be made or written", self.root.display()));
        let begun = fs::create_dir_all(self.root.join("target")).and_then(|()| {
            File::options().create(true).truncate(false).read(true).write(true).open(self.root.join(LOCK))
        });
        let lock = begun.map_err(unwritten)?;
        if lock.try_lock().is_err() {
            self.messages
                .say(&format!("rehearse: {product} {why}, and another run is building: waiting until it has ended"));
            lock.lock().map_err(unwritten)?;
        }
        self.lock = Some(lock);
        Ok(())
    }

    /// Says what is built, and begins the log, which is of one run. The build's moment is the system's own: what is
    /// written from now on is not older.
    fn begin(&mut self, message: &str) -> Result<Build, Failure> {
        self.messages.say(&format!("rehearse: {message}"));
        let unwritten = |_| Failure::new(UNBUILT, format!("{}/target cannot be made or written", self.root.display()));
        let lock =
            self.lock.as_ref().map_or(Err(io::ErrorKind::NotFound.into()), File::try_clone).map_err(unwritten)?;
        let moment = lock.set_len(1).and_then(|()| lock.set_len(0)).and_then(|()| lock.metadata()?.modified());
        let log = self.root.join(LOG);
        if !std::mem::replace(&mut self.begun, true) {
            File::create(&log).map_err(unwritten)?;
        }
        let log = File::options().append(true).open(log).map_err(unwritten)?;
        Ok(Build { moment: moment.map_err(unwritten)?, log, lock })
    }

    /// Proves and builds a product by rt, and puts it into its place; how far rt is, is told.
    fn prove(&mut self, proof: Proof) -> Result<(), Failure> {
        let Proof { product, what, why, krate, verb } = proof;
        let how = format!("rt {verb} in crates/{krate}");
        let mut build = self.begin(&format!("{product} {why}: proving and building it first ({how})"))?;
        self.messages.say("rehearse: this may take minutes; it can be stopped (Ctrl-C), and goes on where it stopped");
        let proved = self.rt(krate, verb, &mut build).unwrap_or(false);
        self.messages.clear();
        if !proved || self.place(krate, product).is_err() || !is_there(&self.root.join(product)) {
            let log = fs::read(self.root.join(LOG)).unwrap_or_default();
            let _ = io::stderr().write_all(&log);
            let undone = self.undone;
            let why = format!("the {what} was not proved and built, and {undone}; the log above is in {LOG}");
            return Err(Failure::new(UNBUILT, why));
        }
        self.date_back(product, build.moment)
    }

    /// Runs rt in a crate's folder, and tells how far it is. Whether all was proved.
    fn rt(&mut self, krate: &str, verb: &str, build: &mut Build) -> io::Result<bool> {
        let folder = self.root.join("crates").join(krate);
        let (mut child, said) = start(Command::new("rt").arg(verb).current_dir(folder), &build.lock)?;
        let mut crates = Crates::of(self.root, krate);
        let lines = lines_of(said);
        loop {
            let line = lines.recv_timeout(PAUSE);
            crates.look(self.messages);
            match line {
                Ok(line) => {
                    crates.hear(&String::from_utf8_lossy(&line), self.messages);
                    build.log.write_all(&line)?;
                }
                Err(RecvTimeoutError::Timeout) => {}
                Err(RecvTimeoutError::Disconnected) => break,
            }
        }
        let proved = child.wait()?.success();
        if proved {
            crates.proved(self.messages);
        }
        Ok(proved)
    }

    /// Copies what rt wrote to where it is run or linked. What is there may be running: a new file takes its place.
    fn place(&self, krate: &str, product: &str) -> io::Result<()> {
        let (written, place) = (self.root.join(home::written(krate, product)), self.root.join(product));
        let new = self.root.join(format!("{product}.new"));
        fs::create_dir_all(place.parent().unwrap_or(self.root))?;
        fs::copy(written, &new)?;
        fs::rename(new, place)
    }

    /// Builds the command by cargo, with the repository's own archive and into its own folder, whatever the environment
    /// names.
    fn compile(&mut self, command: &str, why: &str) -> Result<(), Failure> {
        let mut build = self.begin(&format!("{command} {why}: building it first (cargo build)"))?;
        let mut cargo = Command::new("cargo");
        cargo.args(["build", "--release", "--offline", "--quiet", "--bin", CALLS, "--manifest-path", MANIFEST]);
        for name in ELSEWHERE {
            cargo.env_remove(name);
        }
        let mut said = Vec::new();
        let built = start(cargo.current_dir(self.root), &build.lock).and_then(|(mut child, mut lines)| {
            lines.read_to_end(&mut said)?;
            build.log.write_all(&said)?;
            child.wait()
        });
        if !built.is_ok_and(|ended| ended.success()) || !is_there(&self.root.join(command)) {
            let _ = io::stderr().write_all(&said);
            let undone = self.undone;
            let why = format!("the command was not built, and {undone}; the log above is in {LOG}");
            return Err(Failure::new(UNBUILT, why));
        }
        self.date_back(command, build.moment)
    }

    /// Dates a product by when its build began: what was written meanwhile is newer than the product. cargo leaves
    /// alone what was built of sources that say what they said before.
    fn date_back(&self, product: &str, moment: SystemTime) -> Result<(), Failure> {
        let dated = File::open(self.root.join(product)).and_then(|file| file.set_modified(moment));
        dated.map_err(|_| Failure::new(UNBUILT, format!("{product} cannot be dated")))
    }
}

/// What is said where it cannot be told whether something is that of its sources.
fn untold(asked: &str) -> Failure {
    Failure::new(UNBUILT, format!("it cannot be told whether {asked} is that of the sources"))
}

/// Whether a product is there: a library, or a program that can be run.
fn is_there(product: &Path) -> bool {
    match product.extension() {
        Some(end) if end == "a" => product.is_file(),
        _ => system::runnable(product),
    }
}

/// Something below a path that is newer than a moment. A folder is newer where a file has gone. What is not there is
/// not newer.
fn newer_than(moment: SystemTime, path: &Path) -> io::Result<Option<PathBuf>> {
    let about = match fs::symlink_metadata(path) {
        Err(error) if error.kind() == io::ErrorKind::NotFound => return Ok(None),
        about => about?,
    };
    if about.modified()? > moment {
        return Ok(Some(path.to_path_buf()));
    }
    let entries = if about.is_dir() { fs::read_dir(path)?.collect::<io::Result<Vec<_>>>()? } else { Vec::new() };
    let found = entries.iter().map(|entry| newer_than(moment, &entry.path()));
    found.filter_map(Result::transpose).next().transpose()
}

/// Sees that a tool is on the PATH.
fn on_path(tool: &str, what: &str, product: &str, why: &str) -> Result<(), Failure> {
    let path = env::var_os("PATH").unwrap_or_default();
    let found = env::split_paths(&path).any(|folder| system::runnable(&folder.join(tool)));
    let missing = || Failure::new(UNBUILT, format!("{product} {why}, and {tool}, {what}, is not on the PATH"));
    found.then_some(()).ok_or_else(missing)
}

/// Starts a tool; what it says comes by a pipe. Its standard input is the lock's file, which is empty: so it holds the
/// lock too, if this command is ended before it, and standard input is left to the program.
fn start(tool: &mut Command, lock: &File) -> io::Result<(Child, PipeReader)> {
    let (said, says) = io::pipe()?;
    let child = tool.stdin(lock.try_clone()?).stdout(says.try_clone()?).stderr(says).spawn();
    // The command holds the pipe's end for another start.
    tool.stdout(io::stderr()).stderr(io::stderr());
    Ok((child?, said))
}

/// The lines that come by a pipe, as they come.
fn lines_of(said: PipeReader) -> Receiver<Vec<u8>> {
    let (sender, receiver) = mpsc::channel();
    thread::spawn(move || {
        let mut said = BufReader::new(said);
        let mut line = Vec::new();
        while said.read_until(b'\n', &mut line).is_ok_and(|count| count > 0) {
            if sender.send(std::mem::take(&mut line)).is_err() {
                return;
            }
        }
    });
    receiver
}
