//! Running the other programs on a case.

use std::io::{Read, Write};
use std::process::{Child, Command, ExitStatus, Stdio};
use std::sync::{Arc, Mutex, MutexGuard};
use std::thread;
use std::time::{Duration, Instant};

/// A program that has not ended by then is taken to hang.
const PATIENCE: Duration = Duration::from_secs(30);

/// What fits a pipe whether or not anybody reads it.
const PIPE: usize = 4096;

/// The programs that are compared with the library.
pub struct Programs {
    pub rehearse: Arc<Program>,
    pub savetable: Arc<Program>,
    pub printsheet: Arc<Program>,
}

/// What a program wrote to standard output and to standard error.
#[derive(PartialEq, Eq)]
pub struct Printed {
    pub out: Vec<u8>,
    pub errors: Vec<u8>,
}

/// A program, and what runs of it now: at most one process for each thread that calls [`Program::run`].
pub struct Program {
    path: String,
    running: Mutex<Vec<(Instant, u64, Child)>>,
}

impl Program {
    /// A program whose processes are ended where they hang.
    pub fn watched(path: &str) -> Arc<Program> {
        let program = Arc::new(Program { path: path.to_string(), running: Mutex::new(Vec::new()) });
        let watched = Arc::clone(&program);
        thread::spawn(move || loop {
            watched.end_hanging();
            thread::sleep(Duration::from_secs(1));
        });
        program
    }

    /// What the program prints for `stream`, or why there is nothing to compare. `ticket` is that of no other run of
    /// now.
    pub fn run(&self, ticket: u64, stream: &[u8]) -> Result<Printed, String> {
        let spawned =
            Command::new(&self.path).stdin(Stdio::piped()).stdout(Stdio::piped()).stderr(Stdio::piped()).spawn();
        let mut child = spawned.map_err(|error| format!("{} does not start: {error}", self.path))?;
        let pipes = (child.stdin.take(), child.stdout.take(), child.stderr.take());
        let (Some(mut stdin), Some(mut stdout), Some(mut stderr)) = pipes else {
            return Err("no pipes".to_string());
        };
        self.running().push((Instant::now(), ticket, child));
        let (mut out, mut errors) = (Vec::new(), Vec::new());
        // The program may end before it has read everything, so a write may fail.
        let read = if stream.len() <= PIPE {
            let _ = stdin.write_all(stream);
            drop(stdin);
            stdout.read_to_end(&mut out)
        } else {
            thread::scope(|scope| {
                scope.spawn(move || {
                    let _ = stdin.write_all(stream);
                });
                stdout.read_to_end(&mut out)
            })
        };
        // What it says there fits a pipe.
        let read = read.and_then(|_| stderr.read_to_end(&mut errors));
        read.map_err(|error| format!("its output cannot be read: {error}"))?;
        let status = self.end(ticket)?;
        if status.success() {
            Ok(Printed { out, errors })
        } else {
            Err(format!("it ended with {status} after {} bytes", out.len()))
        }
    }

    /// The processes that run now.
    fn running(&self) -> MutexGuard<'_, Vec<(Instant, u64, Child)>> {
        self.running.lock().unwrap_or_else(|poisoned| poisoned.into_inner())
    }

    /// Waits for a process to end.
    fn end(&self, ticket: u64) -> Result<ExitStatus, String> {
        let mut running = self.running();
        let at = running.iter().position(|entry| entry.1 == ticket).ok_or("lost")?;
        let (_, _, mut child) = running.swap_remove(at);
        drop(running);
        child.wait().map_err(|error| error.to_string())
    }

    /// Ends the processes that run for too long.
    fn end_hanging(&self) {
        for (since, _, child) in self.running().iter_mut() {
            if since.elapsed() > PATIENCE {
                let _ = child.kill();
            }
        }
    }
}
