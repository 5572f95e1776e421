//! Links `libboundary.a`, which `bash tests/library` puts into `target/staticlib` at the repository's
//! root. `DOZHUMEK_LIB` names another folder that holds it.
use std::env;
use std::path::{absolute, PathBuf};

/// Tells cargo where the archive is, or that it is not there.
fn main() {
    println!("cargo:rerun-if-env-changed=DOZHUMEK_LIB");
    let root = PathBuf::from(env::var("CARGO_MANIFEST_DIR").unwrap()).join("../..");
    let folder = env::var("DOZHUMEK_LIB").map_or_else(|_| root.join("target/staticlib"), PathBuf::from);
    let folder = absolute(&folder).unwrap_or(folder);
    let archive = folder.join("libboundary.a");
    println!("cargo:rerun-if-changed={}", archive.display());
    if !archive.is_file() {
        let advice = "run `bash tests/library` at the repository's root, or name its folder by DOZHUMEK_LIB";
        println!("cargo::error={} is not there: {advice}", archive.display());
        return;
    }
    println!("cargo:rustc-link-search=native={}", folder.display());
    println!("cargo:rustc-link-lib=static=boundary");
}
