//! Links the program `calls` with the archive that BRANMUSLIN_ARCHIVE names.
//!
//! Without the variable everything builds all the same, so that the other
//! program and the tests need no archive; `calls` then only says what it lacks.

use std::env;
use std::path::Path;

const VARIABLE: &str = "BRANMUSLIN_ARCHIVE";

fn main() {
    println!("cargo:rerun-if-env-changed={VARIABLE}");
    println!("cargo:rustc-check-cfg=cfg(archive)");
    let Some(archive) = env::var_os(VARIABLE) else {
        return;
    };
    let archive = archive.into_string().expect("the path is no plain text");
    // The linker runs in another folder than the caller's.
    let found = Path::new(&archive).is_absolute() && Path::new(&archive).is_file();
    assert!(found, "{VARIABLE} isn't a file's whole path: {archive}");
    println!("cargo:rerun-if-changed={archive}");
    println!("cargo:rustc-link-arg-bin=calls={archive}");
    println!("cargo:rustc-cfg=archive");
}
