//! A repository of stand-ins: programs and a command that show what they are fed, sources that are older than all of
//! them, and tools that build nothing. The command `rehearse` is in its place there, and is called in another folder.
use front::home::Program;
use std::ffi::OsStr;
use std::fs::{self, File};
use std::os::unix::fs::PermissionsExt;
use std::path::{Path, PathBuf};
use std::process::{Child, Command, Output, Stdio};
use std::sync::Mutex;
use std::time::{Duration, SystemTime};

/// No program is written while another is started: the new process would hold it open for writing, and it could not be
/// run.
static STARTING: Mutex<()> = Mutex::new(());

/// What is on standard input, where a case says nothing else.
pub const INPUT: &[u8] = b"\x01\x00\xff\x0a\x00";

/// What most files of bytes here have.
pub const BYTES: &[u8] = b"\x02\x00\x23\x0a\x30";

/// A text of hexadecimal digits, and what it spells.
pub const TEXT: &[u8] = b"# head: no digits zz\n01 fF\t0A0b # 99\r\n\n  Cd";
pub const SPELLED: &[u8] = b"\x01\xff\x0a\x0b\xcd";

/// What the stand-in for the command over the proved calls does: it shows its arguments, its folder and its input.
const CALLS: &str = "printf '<%s>' \"$@\"; printf '\\n%s\\n' \"$PWD\"; cat; echo the command >&2; exit 5";

/// The files of the sources.
const SOURCES: [&str; 9] = [
    "crates/machine/src/lib.rt",
    "crates.txt",
    "rust/command/src/main.rs",
    "rust/command/Cargo.toml",
    "rust/Cargo.toml",
    "rust/Cargo.lock",
    "rust/binding/src/lib.rs",
    "rust/binding/build.rs",
    "rust/binding/Cargo.toml",
];

/// The repository, in a folder of its own that goes with it.
pub struct Root {
    folder: PathBuf,
}

impl Root {
    /// A repository whose programs print what they are fed; the one that saves puts two bytes before it.
    pub fn new(name: &str) -> Root {
        let folder = PathBuf::from(env!("CARGO_TARGET_TMPDIR")).join(format!("door-{name}"));
        let _ = fs::remove_dir_all(&folder);
        let root = Root { folder: folder.canonicalize().unwrap_or(folder) };
        SOURCES.iter().for_each(|source| root.put(&format!("root/{source}"), b""));
        root.put("root/target/staticlib/libboundary.a", b"");
        old(&root.folder.join("root"));
        root.put("else where/bytes", BYTES);
        root.put("else where/two words.hex", TEXT);
        root.put("in", INPUT);
        root.link("rehearse", env!("CARGO_BIN_EXE_rehearse"));
        root.script("root/rust/target/release/rehearse-front", CALLS);
        root.program(Program::Rehearse, "cat");
        root.program(Program::SaveTable, "printf '\\x01\\x07'; cat");
        root.program(Program::PrintSheet, "cat");
        for tool in ["rt", "cargo"] {
            root.script(&format!("bin/{tool}"), &format!("echo {tool} was called >&2; exit 1"));
        }
        root
    }

    /// Puts a file into the folder.
    fn put(&self, name: &str, bytes: &[u8]) {
        let path = self.folder.join(name);
        fs::create_dir_all(path.parent().expect("a folder")).expect("a folder");
        fs::write(path, bytes).expect("a file");
    }

    /// Puts a script of the shell into the folder.
    fn script(&self, name: &str, script: &str) {
        let _held = STARTING.lock();
        // What runs may not be written: a new file takes its place.
        let _ = fs::remove_file(self.folder.join(name));
        self.put(name, format!("#!/usr/bin/env bash\n{script}\n").as_bytes());
        fs::set_permissions(self.folder.join(name), fs::Permissions::from_mode(0o755)).expect("a program");
    }

    /// Puts a command that cargo built into its place.
    pub fn link(&self, name: &str, built: &str) {
        let place = self.folder.join("root/rust/target/release").join(name);
        fs::create_dir_all(place.parent().expect("a folder")).expect("a folder");
        let _ = fs::remove_file(&place);
        fs::hard_link(built, place).expect("the command");
    }

    /// A stand-in for a proved program.
    pub fn program(&self, program: Program, script: &str) {
        self.script(&format!("root/{}", program.path()), script);
    }

    /// A stand-in for the command over the proved calls.
    pub fn calls(&self, script: &str) {
        self.script("root/rust/target/release/rehearse-front", script);
    }

    /// A path in the folder from which the command is called.
    pub fn here(&self, name: impl AsRef<Path>) -> PathBuf {
        self.folder.join("else where").join(name)
    }

    /// Writes a file there.
    pub fn write(&self, name: &str, bytes: impl AsRef<[u8]>) {
        fs::write(self.here(name), bytes).expect("a file");
    }

    /// What a file there has; none where there is none.
    pub fn read(&self, name: &str) -> Option<Vec<u8>> {
        fs::read(self.here(name)).ok()
    }

    /// The command with these arguments.
    pub fn command<A: AsRef<OsStr>>(&self, arguments: &[A]) -> Command {
        let mut command = Command::new(self.folder.join("root/rust/target/release/rehearse"));
        self.settle(&mut command).args(arguments);
        command
    }

    /// The shell with a script, in which `$0` is the command.
    pub fn shell(&self, script: &str) -> Command {
        let mut command = Command::new("bash");
        self.settle(&mut command).arg("-c").arg(script);
        command.arg(self.folder.join("root/rust/target/release/rehearse"));
        command
    }

    /// Gives a command the environment of the repository.
    fn settle<'a>(&self, command: &'a mut Command) -> &'a mut Command {
        let path = std::env::var("PATH").unwrap_or_default();
        command.env("PATH", format!("{}:{path}", self.folder.join("bin").display()));
        command.env("DOZHUMEK_HOME", self.folder.join("root")).env("DOZHUMEK_CLOSED", "");
        command.stdout(Stdio::piped()).stderr(Stdio::piped());
        command.current_dir(self.here("")).stdin(self.input("../in"))
    }

    /// A file as standard input.
    pub fn input(&self, name: &str) -> Stdio {
        Stdio::from(File::open(self.here(name)).expect("an input"))
    }

    /// Sees how the command answers these arguments: its status, what it prints, and what it tells, where a * is
    /// anything.
    pub fn expect<A: AsRef<OsStr>>(&self, name: &str, arguments: &[A], status: i32, out: impl AsRef<[u8]>, err: &str) {
        self.answers(name, &mut self.command(arguments), status, out, err);
    }

    /// The same, of a command with another input or output; what goes elsewhere is not seen.
    pub fn answers(&self, name: &str, command: &mut Command, status: i32, out: impl AsRef<[u8]>, err: &str) {
        let child = started(command);
        let Output { status: ended, stdout, stderr } = child.wait_with_output().expect("its answer");
        let (told, printed) = (String::from_utf8_lossy(&stderr), String::from_utf8_lossy(&stdout));
        let same = ended.code() == Some(status) && stdout == out.as_ref() && matches(told.trim_end_matches('\n'), err);
        let wanted = String::from_utf8_lossy(out.as_ref());
        assert!(same, "{name}: {ended}\nout {printed:?}\nerr {told:?}\nexpected {status}\nout {wanted:?}\nerr {err:?}");
        println!("case: {name}");
    }

    /// Sees what a save comes to, and what is in OUT after it. Nothing is printed, and nothing temporary is left.
    pub fn saves(&self, name: &str, (file, out): (&str, &str), status: i32, held: Option<&[u8]>, err: &str) {
        self.answers(name, &mut self.command(&["--save", file, out]), status, b"", err);
        assert_eq!(self.read(out).as_deref(), held, "{name}");
        assert_eq!(self.hidden(), Vec::<String>::new(), "{name}");
    }

    /// The hidden files there: what is temporary.
    pub fn hidden(&self) -> Vec<String> {
        let entries = fs::read_dir(self.here("")).expect("the folder");
        let names = entries.map(|entry| entry.expect("an entry").file_name().to_string_lossy().into_owned());
        names.filter(|name| name.starts_with('.')).collect()
    }

    /// Sees that all arguments are handed on to the command over the proved calls, as they are.
    pub fn hands_on<A: AsRef<OsStr>>(&self, name: &str, arguments: &[A]) {
        let mut shown: Vec<u8> = Vec::new();
        for argument in arguments {
            shown.extend([b"<", argument.as_ref().as_encoded_bytes(), b">"].concat());
        }
        if arguments.is_empty() {
            shown.extend(b"<>");
        }
        let here = self.folder.join("else where");
        shown.extend(format!("\n{}\n", here.display()).as_bytes());
        shown.extend(INPUT);
        self.expect(name, arguments, 5, shown, "the command");
    }
}

impl Drop for Root {
    fn drop(&mut self) {
        let _ = fs::remove_dir_all(&self.folder);
    }
}

/// Starts a command.
pub fn started(command: &mut Command) -> Child {
    let _held = STARTING.lock();
    command.spawn().expect("a process")
}

/// Dates a folder and all in it as old.
fn old(path: &Path) {
    if path.is_dir() {
        fs::read_dir(path).expect("a folder").for_each(|entry| old(&entry.expect("an entry").path()));
    }
    let long_ago = SystemTime::UNIX_EPOCH + Duration::from_secs(1_000_000_000);
    File::open(path).and_then(|file| file.set_modified(long_ago)).expect("a date");
}

/// Whether a text is what a pattern says, in which a * is anything.
fn matches(text: &str, pattern: &str) -> bool {
    let Some((before, after)) = pattern.split_once('*') else { return text == pattern };
    let Some(rest) = text.strip_prefix(before) else { return false };
    let ends = rest.char_indices().map(|(at, _)| at).chain([rest.len()]);
    ends.into_iter().any(|at| matches(&rest[at..], after))
}
