//! Tells cargo where the archive `libhost.a` stands.

use std::env;
use std::path::{Path, PathBuf};

/// The variable that names another folder than the repository's.
const FOLDER_VARIABLE: &str = "SHPENDORAK_LIB_DIR";
/// Where the archive stands in the repository, seen from this crate.
const FOLDER: &str = "../target/staticlib";
/// The archive.
const ARCHIVE: &str = "libhost.a";

/// The folder that the variable names, or the repository's.
fn folder() -> PathBuf {
    match env::var_os(FOLDER_VARIABLE) {
        Some(named) => PathBuf::from(named),
        None => Path::new(env!("CARGO_MANIFEST_DIR")).join(FOLDER),
    }
}

/// Names the folder to the linker; the crate is built anew when the archive changes.
fn main() {
    let folder = folder();
    let archive = folder.join(ARCHIVE);
    if !archive.is_file() {
        println!("cargo::error={} is missing; `bash tools/build host` makes it", archive.display());
    }
    println!("cargo::rerun-if-env-changed={FOLDER_VARIABLE}");
    println!("cargo::rerun-if-changed={}", archive.display());
    println!("cargo::rustc-link-search=native={}", folder.display());
}
