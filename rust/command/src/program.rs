//! Runs the proved programs: the bytes are their standard input, and what they print is theirs.
use crate::arguments::Arguments;
use crate::failure::{Failure, BAD, DONE, NO_TABLE, READER_GONE, UNBUILT, UNSAVED, UNWRITTEN};
use crate::files::Taken;
use crate::home::Program;
use crate::messages::Messages;
use crate::output::Output;
use crate::system;
use std::io::{self, IsTerminal, Read, Write};
use std::os::unix::process::ExitStatusExt;
use std::path::Path;
use std::process::{Child, Command, ExitStatus, Stdio};
use std::thread;

/// How a program ended: its status, as a shell counts it, what it printed where that was taken, and what it said on
/// standard error.
struct Ended {
    status: u8,
    printed: Vec<u8>,
    said: String,
}

impl Ended {
    /// Whether it could not write its lines.
    fn unwritten(&self) -> bool {
        self.status == DONE && !self.said.is_empty()
    }
}

/// Rehearses, or prints a sheet, by the proved program. A proved program hears nothing of a reader that has gone: it
/// says, as of a full disk, that it could not write.
pub fn print(
    root: &Path,
    program: Program,
    arguments: &Arguments,
    taken: Taken,
    messages: &mut Messages,
) -> Result<u8, Failure> {
    let numbers = arguments.numbers();
    let mut bytes = numbers.map(chosen).unwrap_or_default();
    bytes.extend(&taken.input.bytes);
    let mut ended = match numbers {
        Some(numbers) if io::stdout().is_terminal() => headed(root, program, &bytes, &heading(numbers))?,
        _ => run(root, program, &bytes, Stdio::inherit())?,
    };
    if let Some(part) = numbers.and_then(|numbers| missing(&ended, numbers)) {
        let sheet = &arguments.sheet;
        return Err(Failure::new(BAD, format!("--sheet {sheet}: the table has no part {part} (refused 26)")));
    }
    if ended.unwritten() && system::reader_gone(1) {
        ended = Ended { status: READER_GONE, said: String::new(), ..ended };
    }
    remark(taken, ended.status, messages);
    if !ended.said.is_empty() {
        messages.say(&ended.said);
    }
    // A program that could not write its lines says so on standard error, and has no status to tell it by.
    Ok(if ended.unwritten() { UNWRITTEN } else { ended.status })
}

/// Saves a table by the proved program.
pub fn save(
    root: &Path,
    program: Program,
    taken: Taken,
    output: &Output,
    messages: &mut Messages,
) -> Result<u8, Failure> {
    let title = taken.input.title.clone();
    let Ended { status, printed, said } = run(root, program, &taken.input.bytes, Stdio::piped())?;
    if status == DONE && is_refusal(&said) {
        remark(taken, status, messages);
        return Err(Failure::new(NO_TABLE, format!("{title}: {said}: {UNSAVED}")));
    }
    if !said.is_empty() {
        messages.say(&said);
    }
    if status != DONE {
        let ended = format!("{} ended with status {status}", program.path());
        return Err(Failure::new(UNWRITTEN, format!("{title}: {ended}: {UNSAVED}")));
    }
    if !said.is_empty() || printed.is_empty() {
        return Err(Failure::new(UNWRITTEN, format!("{title}: {UNSAVED}")));
    }
    output.put(&printed)?;
    remark(taken, status, messages);
    Ok(DONE)
}

/// Tells what is to be told of an input after the program has ended.
fn remark(taken: Taken, status: u8, messages: &mut Messages) {
    let failed = !matches!(status, DONE | READER_GONE);
    taken.remarks(failed).iter().for_each(|remark| messages.say(remark));
}

/// The bytes of the parts that are chosen for a sheet: four each, the lowest first. Four bytes cannot hold every
/// number; their largest names a part that no table has, and so do the numbers that they cannot hold.
fn chosen(numbers: [&str; 3]) -> Vec<u8> {
    numbers.iter().flat_map(|number| number.parse().unwrap_or(u32::MAX).to_le_bytes()).collect()
}

/// Which of the chosen parts the program does not find: it tells the position of its number.
fn missing<'a>(ended: &Ended, numbers: [&'a str; 3]) -> Option<&'a str> {
    let position = ended.said.strip_prefix("refused 26 at ").filter(|_| ended.status == DONE)?;
    ["0", "4", "8"].iter().position(|&place| place == position).map(|place| numbers[place])
}

/// Whether something is the line of a refused load.
fn is_refusal(said: &str) -> bool {
    let number = |word: &str| !word.is_empty() && word.bytes().all(|byte| byte.is_ascii_digit());
    let words = said.strip_prefix("refused ").and_then(|words| words.split_once(" at "));
    words.is_some_and(|(refusal, position)| number(refusal) && number(position))
}

/// The heading of a sheet of numbered parts.
fn heading(numbers: [&str; 3]) -> String {
    let [first, second, third] = numbers.map(|number| format!("part {number}"));
    let columns = format!("{:>19} {:>3} {:>10} {:>4} {:>2}", "t", "n", "step", "rnds", "rv");
    format!("{columns} {first:>11} {second:>11} {third:>11}\n")
}

/// Starts a program, and feeds it the bytes as it reads them.
fn start(root: &Path, program: Program, bytes: &[u8], out: Stdio) -> Result<Child, Failure> {
    let path = program.path();
    let mut command = Command::new(root.join(&path));
    command.stdin(Stdio::piped()).stdout(out).stderr(Stdio::piped());
    let mut child = command.spawn().map_err(|why| Failure::new(UNBUILT, format!("{path} cannot be run: {why}")))?;
    if let Some(mut input) = child.stdin.take() {
        let bytes = bytes.to_vec();
        // It may end before it reads all.
        thread::spawn(move || input.write_all(&bytes));
    }
    Ok(child)
}

/// Runs a program. What it prints goes to `out`, and is taken where that is a pipe.
fn run(root: &Path, program: Program, bytes: &[u8], out: Stdio) -> Result<Ended, Failure> {
    let child = start(root, program, bytes, out)?;
    let answer = child.wait_with_output().map_err(|why| Failure::new(UNWRITTEN, why.to_string()))?;
    Ok(Ended { status: status_of(answer.status), printed: answer.stdout, said: text(&answer.stderr) })
}

/// Runs a program with a heading above its lines, where there are any.
fn headed(root: &Path, program: Program, bytes: &[u8], heading: &str) -> Result<Ended, Failure> {
    let mut child = start(root, program, bytes, Stdio::piped())?;
    let mut errors = child.stderr.take();
    let listening = thread::spawn(move || {
        let mut said = Vec::new();
        let _ = errors.as_mut().map(|errors| errors.read_to_end(&mut said));
        said
    });
    let copied = child.stdout.take().map_or(Ok(()), |mut lines| copy_below(heading, &mut lines));
    let ended = child.wait().map_err(|why| Failure::new(UNWRITTEN, why.to_string()))?;
    let said = text(&listening.join().unwrap_or_default());
    let status = if copied.is_err() { UNWRITTEN } else { status_of(ended) };
    Ok(Ended { status, printed: Vec::new(), said })
}

/// Prints the heading, once there is a line, and the lines below it.
fn copy_below(heading: &str, lines: &mut impl Read) -> io::Result<()> {
    let (mut out, mut first) = (io::stdout(), [0]);
    if lines.read(&mut first)? > 0 {
        out.write_all(heading.as_bytes())?;
        out.write_all(&first)?;
        io::copy(lines, &mut out)?;
    }
    out.flush()
}

/// A status as a shell counts it.
fn status_of(ended: ExitStatus) -> u8 {
    let signal = |signal: i32| 128 + signal;
    ended.code().or(ended.signal().map(signal)).and_then(|status| u8::try_from(status).ok()).unwrap_or(UNWRITTEN)
}

/// What a program said, without the line feeds at its end.
fn text(said: &[u8]) -> String {
    String::from_utf8_lossy(said).trim_end_matches('\n').to_string()
}
