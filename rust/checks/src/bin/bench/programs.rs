//! Processor time of programs that read a stream and print lines.

use std::fs::File;
use std::io;
use std::path::Path;
use std::process::{Command, Stdio};
use std::time::Duration;

/// What `getrusage` fills: two times of seconds and microseconds, and 14 counts that are of no use here.
#[repr(C)]
struct Usage {
    times: [[i64; 2]; 2],
    rest: [i64; 14],
}

extern "C" {
    fn getrusage(who: i32, usage: *mut Usage) -> i32;
}

/// Whose time `getrusage` tells: this process's own, or that of its children that have ended.
#[derive(Clone, Copy)]
pub enum Whose {
    Own = 0,
    Children = -1,
}

/// User and system time.
pub fn time_of(whose: Whose) -> io::Result<Duration> {
    let mut usage = Usage { times: [[0; 2]; 2], rest: [0; 14] };
    // SAFETY: the struct is as large as the C library's on 64-bit Linux, and it is this function's own.
    if unsafe { getrusage(whose as i32, &mut usage) } != 0 {
        return Err(io::Error::last_os_error());
    }
    Ok(usage.times.iter().map(|&[s, us]| Duration::from_micros(s as u64 * 1_000_000 + us as u64)).sum())
}

/// A program whose standard input is a stream.
fn command(program: &str, stream: &Path) -> io::Result<Command> {
    let mut command = Command::new(program);
    command.stdin(File::open(stream)?);
    Ok(command)
}

/// What a program prints for a stream.
pub fn printed(program: &str, stream: &Path) -> io::Result<Vec<u8>> {
    let output = command(program, stream)?.output()?;
    if !output.status.success() {
        return Err(io::Error::other(format!("{program} ended with {}", output.status)));
    }
    Ok(output.stdout)
}

/// User and system time of one run, in nanoseconds; what it prints is dropped.
pub fn time(program: &str, stream: &Path) -> io::Result<f64> {
    let mut command = command(program, stream)?;
    let before = time_of(Whose::Children)?;
    let status = command.stdout(Stdio::null()).status()?;
    let after = time_of(Whose::Children)?;
    if !status.success() {
        return Err(io::Error::other(format!("{program} ended with {status}")));
    }
    Ok((after - before).as_nanos() as f64)
}
