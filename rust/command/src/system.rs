//! What the standard library does not tell: which of the standard streams are closed, whether somebody still reads one,
//! what the caller may read and write, the caller's other open files, and signals that are held back.
use std::env;
use std::ffi::{c_char, c_int, c_short, c_ulong, CString};
use std::fs::File;
use std::io;
use std::os::fd::BorrowedFd;
use std::os::unix::ffi::OsStrExt;
use std::path::Path;

/// Names the streams that are closed. The script says so: when the command begins, all are open.
const CLOSED: &str = "DOZHUMEK_CLOSED";

/// What may be done with a file, as access(2) numbers it.
const RUN: c_int = 1;
const WRITE: c_int = 2;
const READ: c_int = 4;

/// The signals that end a command and can be held back: hangup, interrupt, termination, and a file beyond its limit.
const ENDING: [c_int; 4] = [1, 2, 15, 25];

/// What poll(2) tells of a pipe whose reader has gone.
const ERROR: c_short = 8;

/// How sigprocmask(2) is asked to add to the signals that are held back, and to set them.
const BLOCK: c_int = 0;
const SET: c_int = 2;

/// A set of signals: the C library's has 1,024 bits.
type Signals = [u64; 16];

/// A file that poll(2) is asked about, what it is asked, and what it tells.
#[repr(C)]
struct Polled {
    descriptor: c_int,
    asked: c_short,
    told: c_short,
}

extern "C" {
    fn poll(files: *mut Polled, count: c_ulong, wait: c_int) -> c_int;
    fn access(path: *const c_char, mode: c_int) -> c_int;
    fn sigprocmask(how: c_int, set: *const Signals, old: *mut Signals) -> c_int;
}

/// Whether a standard stream is open.
pub fn is_open(stream: u8) -> bool {
    let closed = env::var(CLOSED).unwrap_or_default();
    !closed.contains(char::from(b'0' + stream))
}

/// Whether a stream is a pipe whose reader has gone.
pub fn reader_gone(stream: u8) -> bool {
    let mut polled = Polled { descriptor: c_int::from(stream), asked: 0, told: 0 };
    // SAFETY: the one file lives as long as the call, which does not wait.
    let count = unsafe { poll(&mut polled, 1, 0) };
    count == 1 && polled.told & ERROR != 0
}

/// Whether the caller may do something with a file.
fn may(path: &Path, mode: c_int) -> bool {
    let Ok(path) = CString::new(path.as_os_str().as_bytes()) else { return false };
    // SAFETY: the path is a string that ends with a zero, and lives as long as the call.
    unsafe { access(path.as_ptr(), mode) == 0 }
}

/// Whether the caller may read a file.
pub fn readable(path: &Path) -> bool {
    may(path, READ)
}

/// Whether the caller may write a file, or into a folder.
pub fn writable(path: &Path) -> bool {
    may(path, WRITE)
}

/// Whether the caller may run a file.
pub fn runnable(path: &Path) -> bool {
    path.is_file() && may(path, RUN)
}

/// A file that the caller has open, by its number.
pub fn opened(descriptor: i32) -> io::Result<File> {
    if descriptor < 0 {
        return Err(io::ErrorKind::InvalidInput.into());
    }
    // SAFETY: the number is not negative; where no file is open by it, the duplication says so.
    unsafe { BorrowedFd::borrow_raw(descriptor) }.try_clone_to_owned().map(File::from)
}

/// Does something while the signals that end a command are held back; they come when it is done.
pub fn held_back<T>(work: impl FnOnce() -> T) -> T {
    let mut ending: Signals = [0; 16];
    ending[0] = ENDING.iter().map(|signal| 1 << (signal - 1)).sum();
    let mut before: Signals = [0; 16];
    // SAFETY: both sets live as long as the calls, and are as long as the C library's.
    unsafe { sigprocmask(BLOCK, &ending, &mut before) };
    let done = work();
    // SAFETY: the set lives as long as the call; the old one may be left out.
    unsafe { sigprocmask(SET, &before, std::ptr::null_mut()) };
    done
}
