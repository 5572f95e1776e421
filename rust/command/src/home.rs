//! Where the repository is, and what in it this command runs and builds: each by its path from the repository's root.
use std::path::{Path, PathBuf};
use std::{env, fs, io};

/// Names the root. The script sets it; without it the root is above the command.
const HOME: &str = "DOZHUMEK_HOME";

/// The command over the proved calls, which cargo builds into the folder of this one, and its package.
pub const CALLS: &str = "rehearse-front";
pub const MANIFEST: &str = "rust/command/Cargo.toml";

/// The crate of the proved calls, and its archive.
pub const BOUNDARY: &str = "boundary";
pub const ARCHIVE: &str = "target/staticlib/libboundary.a";

/// The folders of a crate that it is proved and built from. Beside them rt has one of its own.
const PARTS: [&str; 3] = ["src", "specs", "proofs"];

/// What the command over the proved calls is built from.
pub const LINKED: [&str; 8] = [
    "rust/command/src",
    "rust/command/Cargo.toml",
    "rust/Cargo.toml",
    "rust/Cargo.lock",
    "rust/binding/src",
    "rust/binding/build.rs",
    "rust/binding/Cargo.toml",
    ARCHIVE,
];

/// A proved program.
#[derive(Clone, Copy, Debug, PartialEq, Eq)]
pub enum Program {
    Rehearse,
    SaveTable,
    PrintSheet,
}

impl Program {
    /// The name of its crate.
    pub const fn name(self) -> &'static str {
        match self {
            Program::Rehearse => "prog_rehearse",
            Program::SaveTable => "prog_savetable",
            Program::PrintSheet => "prog_printsheet",
        }
    }

    /// Where it is kept and run.
    pub fn path(self) -> String {
        format!("target/bin/{}", self.name())
    }
}

/// Where rt writes what it builds of a crate: the product's name below the crate's own folder.
pub fn written(krate: &str, product: &str) -> String {
    let name = product.rsplit('/').next().unwrap_or(product);
    format!("crates/{krate}/out/{name}")
}

/// What the proved programs and the archive are built from.
pub fn proved(root: &Path) -> io::Result<Vec<String>> {
    let mut crates: Vec<String> = fs::read_dir(root.join("crates"))?
        .map(|entry| Ok(format!("crates/{}", entry?.file_name().to_string_lossy())))
        .collect::<io::Result<_>>()?;
    crates.sort();
    let parts = crates.iter().flat_map(|krate| PARTS.iter().map(move |part| format!("{krate}/{part}")));
    Ok(parts.chain(["crates.txt".to_string()]).collect())
}

/// The root of the repository: the folder with the list of crates.
pub fn root() -> Option<PathBuf> {
    if let Some(home) = env::var_os(HOME) {
        return Some(PathBuf::from(home));
    }
    let command = env::current_exe().ok()?;
    command.ancestors().find(|folder| folder.join("crates.txt").is_file()).map(Path::to_path_buf)
}

/// The command over the proved calls, by its path from the root.
pub fn calls(root: &Path) -> Option<String> {
    let path = env::current_exe().ok()?.with_file_name(CALLS);
    let root = root.canonicalize().ok()?;
    Some(path.strip_prefix(&root).unwrap_or(&path).to_str()?.to_string())
}
