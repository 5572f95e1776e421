//! Where a saved table goes. A regular file is whole or as it was: a new one is written next to it and takes its place.
//! What is no regular file, as a pipe, is written to as it is, and an open file from where it is.
use crate::failure::{Failure, BAD, UNSAVED, UNWRITTEN};
use crate::files::plain;
use crate::system;
use std::ffi::{OsStr, OsString};
use std::fs::{self, File};
use std::io::{self, Write};
use std::os::unix::ffi::OsStrExt;
use std::path::{Path, PathBuf};
use std::process;
use std::time::{SystemTime, UNIX_EPOCH};

/// How many bytes a line of hexadecimal text has.
const ROW: usize = 16;

/// How many links are followed.
const LINKS: usize = 40;

/// The kinds of place: a file that the caller has open, what is no regular file, and a regular file, there or not, with
/// its folder.
enum Place {
    Open(Option<i32>),
    Special(PathBuf),
    Regular { path: PathBuf, folder: PathBuf },
}

/// A place that can be written, as far as that can be told before it is, and its name.
pub struct Output {
    name: OsString,
    place: Place,
}

impl Output {
    /// Finds where OUT is, or why nothing can be put there.
    pub fn find(name: &OsStr) -> Result<Output, Failure> {
        let place = place_of(name).map_err(|(status, why)| failure(status, name, why))?;
        Ok(Output { name: name.to_os_string(), place })
    }

    /// Gives it a table's bytes, in the form that its name tells.
    pub fn put(&self, table: &[u8]) -> Result<(), Failure> {
        let bytes = match ends_with(&self.name, ".hex") {
            true => spelled(table).into_bytes(),
            false => table.to_vec(),
        };
        let unwritten = |_| failure(UNWRITTEN, &self.name, "not all bytes could be written");
        match &self.place {
            Place::Open(descriptor) => write_opened(*descriptor, &bytes).map_err(unwritten),
            Place::Special(path) => write_special(path, &bytes).map_err(unwritten),
            Place::Regular { path, folder } => system::held_back(|| replace(path, folder, &bytes))
                .map_err(|why| failure(UNWRITTEN, &self.name, &format!("{why}: {UNSAVED}"))),
        }
    }
}

/// A failure that is about OUT.
fn failure(status: u8, name: &OsStr, why: &str) -> Failure {
    Failure::new(status, format!("{}: {why}", plain(&name.to_string_lossy())))
}

/// Whether a name ends so, in capitals or not.
fn ends_with(name: &OsStr, end: &str) -> bool {
    name.as_bytes().to_ascii_lowercase().ends_with(end.as_bytes())
}

/// Where a name leads, or the status and why nothing can be put there.
fn place_of(name: &OsStr) -> Result<Place, (u8, &'static str)> {
    if let Some(descriptor) = descriptor(name) {
        return Ok(Place::Open(descriptor));
    }
    if ends_with(name, ".table") {
        return Err((BAD, "it would be read as text, and what is saved is bytes (--text prints a text table)"));
    }
    let path = Path::new(name);
    if path.is_dir() {
        return Err((UNWRITTEN, "it is a directory"));
    }
    let special = path.exists() && !path.is_file();
    let path = match path.is_symlink() && !special {
        true => leads_to(path).ok_or((UNWRITTEN, "the link leads nowhere"))?,
        false => path.to_path_buf(),
    };
    let folder = folder_of(&path).ok_or((UNWRITTEN, "it names no file"))?;
    if !folder.is_dir() {
        return Err((UNWRITTEN, "its folder is not there"));
    }
    if path.exists() && !system::writable(&path) {
        return Err((UNWRITTEN, "it cannot be written"));
    }
    if special {
        return Ok(Place::Special(path));
    }
    match system::writable(&folder) {
        true => Ok(Place::Regular { path, folder }),
        false => Err((UNWRITTEN, "its folder cannot be written")),
    }
}

/// The number of the open file that a name means, if it means one; none of what is no number.
fn descriptor(name: &OsStr) -> Option<Option<i32>> {
    let name = name.to_str()?;
    match name {
        "-" | "/dev/stdout" => return Some(Some(1)),
        "/dev/stderr" => return Some(Some(2)),
        _ => {}
    }
    let number = name.strip_prefix("/dev/fd/").or_else(|| name.strip_prefix("/proc/self/fd/"))?;
    number.starts_with(|first: char| first.is_ascii_digit()).then(|| number.parse().ok())
}

/// The folder of a path: what is before its last slash. None where nothing is after that.
fn folder_of(path: &Path) -> Option<PathBuf> {
    let name = path.as_os_str().as_bytes();
    let after = name.iter().rposition(|&byte| byte == b'/').map_or(0, |slash| slash + 1);
    let folder = if after == 0 { Path::new("./") } else { Path::new(OsStr::from_bytes(&name[..after])) };
    (after < name.len()).then(|| folder.to_path_buf())
}

/// Where a link leads, whether a file is there or not.
fn leads_to(link: &Path) -> Option<PathBuf> {
    let mut path = link.to_path_buf();
    for _ in 0..LINKS {
        match fs::read_link(&path) {
            Ok(next) => path = path.parent()?.join(next),
            Err(_) => return Some(folder_of(&path)?.canonicalize().ok()?.join(path.file_name()?)),
        }
    }
    None
}

/// The bytes as hexadecimal text.
fn spelled(bytes: &[u8]) -> String {
    let row = |row: &[u8]| row.iter().map(|byte| format!("{byte:02x}")).collect::<Vec<_>>().join(" ") + "\n";
    bytes.chunks(ROW).map(row).collect()
}

/// Writes onto a file that the caller has open.
fn write_opened(descriptor: Option<i32>, bytes: &[u8]) -> io::Result<()> {
    let descriptor = descriptor.filter(|&number| number > 2 || system::is_open(number as u8));
    system::opened(descriptor.ok_or(io::ErrorKind::NotFound)?)?.write_all(bytes)
}

/// Writes onto what is no regular file.
fn write_special(path: &Path, bytes: &[u8]) -> io::Result<()> {
    File::options().write(true).truncate(true).open(path)?.write_all(bytes)
}

/// Puts a new file in place of a regular one: with the permissions of the old one, or as the umask has them.
fn replace(path: &Path, folder: &Path, bytes: &[u8]) -> Result<(), &'static str> {
    let moment = SystemTime::now().duration_since(UNIX_EPOCH).unwrap_or_default().subsec_nanos();
    let new = folder.join(format!(".rehearse-{}-{moment}", process::id()));
    let replaced =
        write_new(&new, path, bytes).and_then(|()| fs::rename(&new, path).map_err(|_| "it could not be replaced"));
    if replaced.is_err() {
        let _ = fs::remove_file(&new);
    }
    replaced
}

/// Writes the new file.
fn write_new(new: &Path, old: &Path, bytes: &[u8]) -> Result<(), &'static str> {
    let unwritten = |_| "not all bytes could be written";
    let mut file = File::create_new(new).map_err(unwritten)?;
    file.write_all(bytes).map_err(unwritten)?;
    match fs::metadata(old) {
        Ok(about) => file.set_permissions(about.permissions()).map_err(|_| "its permissions could not be kept"),
        Err(_) => Ok(()),
    }
}
