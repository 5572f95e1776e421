//! Takes what is to be rehearsed, from a file or from standard input: a text table, hexadecimal text, or bytes. Of
//! bytes the first 65,536 are taken, as the programs do; how many come after them is told.
use crate::failure::{Failure, BAD};
use crate::hex;
use crate::input::{Form, Input};
use crate::reader::{self, unmarked};
use crate::system;
use std::fs::{self, File};
use std::io::{self, IsTerminal, Read, Seek};
use std::os::fd::AsFd;
use std::path::Path;
use std::sync::atomic::{AtomicU64, Ordering};
use std::sync::{mpsc, Arc};
use std::thread;
use std::time::Duration;

/// So many bytes of a stream are taken, and so many bytes of text.
pub const LIMIT: usize = 65_536;
const TEXT_LIMIT: u64 = 16 << 20;

/// So many faults of a text are told, and so many characters of one.
const FAULTS: usize = 20;
const LONGEST: usize = 300;

/// What a pipe holds after the limit is counted for so long, and so far.
const PATIENCE: Duration = Duration::from_secs(2);
const COUNTED: u64 = 16 << 20;

/// What is told of bytes that begin as a text does.
const LOOKS: &str = "this looks like text: a text table is read with --table, hexadecimal text with --hex";

/// What was taken, whether its bytes look like text, and what was not taken.
pub struct Taken {
    pub input: Input,
    textual: bool,
    rest: Rest,
}

/// What comes after the limit: so many bytes, or what is still to be counted.
enum Rest {
    Known(u64),
    Open(File),
}

/// How messages call an input.
pub fn title(file: Option<&Path>) -> String {
    file.map_or("standard input".to_string(), |path| plain(&path.display().to_string()))
}

/// Sees that an input is there and may be read, as far as that can be told without opening it.
pub fn there(file: Option<&Path>) -> Result<(), Failure> {
    let Some(path) = file else {
        let closed = || Failure::new(BAD, "standard input is closed");
        return system::is_open(0).then_some(()).ok_or_else(closed);
    };
    let wrong = |why: &str| Err(Failure::new(BAD, format!("{}: {why}", title(file))));
    match fs::metadata(path) {
        Err(error) if error.kind() == io::ErrorKind::PermissionDenied => wrong("it cannot be read"),
        Err(_) => wrong("no such file"),
        Ok(about) if about.is_dir() => wrong("it is a directory"),
        Ok(_) if !system::readable(path) => wrong("it cannot be read"),
        Ok(_) => Ok(()),
    }
}

/// Takes a file, or standard input where there is none, in a form. What goes wrong is told by messages.
pub fn take(file: Option<&Path>, form: Form) -> Result<Taken, Vec<String>> {
    there(file).map_err(|failure| vec![failure.message])?;
    let title = title(file);
    let wrong = |why: &str| vec![format!("rehearse: {title}: {why}")];
    let opened = opened(file).map_err(|_| wrong("it cannot be read"))?;
    match form {
        Form::Bytes => of_bytes(&title, opened).map_err(|_| wrong("it cannot be read")),
        Form::Hex => {
            let spelled = hex::read(unmarked(&text(opened).map_err(|why| wrong(&why))?)).map_err(|why| wrong(&why))?;
            Ok(of_spelled(&title, spelled))
        }
        Form::Table => {
            let text = text(opened).map_err(|why| wrong(&why))?;
            let input = reader::read(&title, &text).map_err(|faults| faulty(&title, &faults))?;
            Ok(Taken { input, textual: false, rest: Rest::Known(0) })
        }
    }
}

/// The messages of a text's faults: so many of them, and whether there are more.
fn faulty(title: &str, faults: &[reader::Fault]) -> Vec<String> {
    let told = faults.iter().take(FAULTS).map(|fault| format!("{title}:{}: {}", fault.line, plain(&fault.message)));
    told.chain((faults.len() > FAULTS).then(|| format!("{title}: and more"))).collect()
}

/// A message or a name without control characters, and not longer than a reader can take.
pub fn plain(message: &str) -> String {
    let shown: String = message.chars().take(LONGEST).flat_map(shown).collect();
    let more = if message.chars().nth(LONGEST).is_some() { "…" } else { "" };
    shown + more
}

/// A character as it is shown.
fn shown(character: char) -> Vec<char> {
    match character.is_control() {
        true => character.escape_default().collect(),
        false => vec![character],
    }
}

/// The form that a file's name tells, in capitals or not; standard input is bytes.
pub fn form_of(file: Option<&Path>) -> Form {
    let name = file.map(|path| path.as_os_str().as_encoded_bytes().to_ascii_lowercase()).unwrap_or_default();
    match name {
        name if name.ends_with(b".table") => Form::Table,
        name if name.ends_with(b".hex") => Form::Hex,
        _ => Form::Bytes,
    }
}

/// A file, opened; standard input as one, so that no more of it is read than is asked for.
fn opened(file: Option<&Path>) -> io::Result<File> {
    match file {
        Some(path) => File::open(path),
        None => io::stdin().as_fd().try_clone_to_owned().map(File::from),
    }
}

/// All of a text.
fn text(file: File) -> Result<Vec<u8>, String> {
    let mut text = Vec::new();
    file.take(TEXT_LIMIT + 1).read_to_end(&mut text).map_err(|_| "it cannot be read".to_string())?;
    match text.len() as u64 > TEXT_LIMIT {
        true => Err(format!("it is longer than {TEXT_LIMIT} bytes, the most that is read of a text")),
        false => Ok(text),
    }
}

/// The first bytes of a file, and what is known of those after them.
fn of_bytes(title: &str, mut file: File) -> io::Result<Taken> {
    let whole = file.metadata()?.is_file() && file.stream_position()? == 0;
    let mut bytes = Vec::new();
    file.by_ref().take(LIMIT as u64).read_to_end(&mut bytes)?;
    let textual = whole && bytes.first().is_some_and(|&first| begins_text(first));
    let rest = match (bytes.len() < LIMIT || file.is_terminal(), file.metadata()) {
        (true, _) => Rest::Known(0),
        (_, Ok(about)) if about.is_file() => Rest::Known(about.len().saturating_sub(file.stream_position()?)),
        _ => Rest::Open(file),
    };
    Ok(Taken { input: Input::of_bytes(title, bytes), textual, rest })
}

/// Whether a text may begin with a byte, and no table does: a character that is seen, white space, or a byte-order
/// mark.
fn begins_text(first: u8) -> bool {
    first.is_ascii_graphic() || matches!(first, b' ' | 9..=13 | 0xEF)
}

/// The first bytes that a text spells.
fn of_spelled(title: &str, spelled: hex::Spelled) -> Taken {
    let hex::Spelled { mut bytes, lines } = spelled;
    let rest = bytes.len().saturating_sub(LIMIT) as u64;
    bytes.truncate(LIMIT);
    let input = Input { form: Form::Hex, lines, ..Input::of_bytes(title, bytes) };
    Taken { input, textual: false, rest: Rest::Known(rest) }
}

impl Taken {
    /// A message where something was not taken. What a pipe still holds is counted, for a while.
    pub fn unread(self) -> Option<String> {
        let (least, count) = match self.rest {
            Rest::Known(count) => ("", count),
            Rest::Open(file) => counted_on(file),
        };
        let title = self.input.title;
        (count > 0).then(|| format!("rehearse: {title}: {least}{count} bytes after the first {LIMIT} were not read"))
    }

    /// What is told after the lines of a program: that its bytes look like text, and how many were not taken. A pipe is
    /// not counted where the program failed.
    pub fn remarks(mut self, failed: bool) -> Vec<String> {
        let textual = self.textual.then(|| format!("rehearse: {}: {LOOKS}", self.input.title));
        if failed && matches!(self.rest, Rest::Open(_)) {
            self.rest = Rest::Known(0);
        }
        textual.into_iter().chain(self.unread()).collect()
    }
}

/// How many bytes come from a file within the patience, and whether there may be more.
fn counted_on(file: File) -> (&'static str, u64) {
    let count = Arc::new(AtomicU64::new(0));
    let (ended, end) = mpsc::channel();
    let counter = Arc::clone(&count);
    thread::spawn(move || {
        let mut file = file.take(COUNTED);
        let mut buffer = vec![0; LIMIT];
        while file.limit() > 0 {
            match file.read(&mut buffer) {
                Ok(0) => return ended.send(()).unwrap_or_default(),
                Ok(more) => drop(counter.fetch_add(more as u64, Ordering::Relaxed)),
                Err(error) if error.kind() == io::ErrorKind::Interrupted => {}
                Err(_) => return,
            }
        }
    });
    let least = if end.recv_timeout(PATIENCE).is_ok() { "" } else { "at least " };
    (least, count.load(Ordering::Relaxed))
}
