//! Links libtogmelic.a, which `rt lib` in crates/togmelic writes: from the folder that TOGMELIC_LIB names, an absolute path,
//! else from the repository's crates/togmelic/out.

use std::ffi::OsString;
use std::path::{Path, PathBuf};

fn main() {
    println!("cargo::rerun-if-env-changed=TOGMELIC_LIB");
    // What is said so, cargo shows as an error, and ends.
    if let Err(reason) = folder().and_then(link) {
        println!("cargo::error={reason}");
    }
}

/// The folder of the library.
fn folder() -> Result<PathBuf, String> {
    match std::env::var_os("TOGMELIC_LIB") {
        Some(folder) => absolute(folder),
        None => Ok(Path::new(env!("CARGO_MANIFEST_DIR")).join("../../crates/togmelic/out")),
    }
}

/// A build script runs in its package's folder and does not know the caller's, so a relative path would be taken from the
/// wrong one.
fn absolute(folder: OsString) -> Result<PathBuf, String> {
    let folder = PathBuf::from(folder);
    if folder.is_absolute() {
        return Ok(folder);
    }
    let named = folder.display();
    Err(format!(
        "TOGMELIC_LIB is '{named}', a relative path, and a build script does not know the folder that cargo was called \
         from: write an absolute path, such as TOGMELIC_LIB=\"$PWD/{named}\""
    ))
}

/// Has cargo link the library of a folder.
fn link(folder: PathBuf) -> Result<(), String> {
    let library = folder.join("libtogmelic.a");
    println!("cargo::rerun-if-changed={}", library.display());
    if !library.is_file() {
        return Err(format!(
            "{} is missing: run `rt lib` in crates/togmelic, or name its folder in TOGMELIC_LIB",
            library.display()
        ));
    }
    println!("cargo::rustc-link-search=native={}", folder.display());
    println!("cargo::rustc-link-lib=static=togmelic");
    Ok(())
}
