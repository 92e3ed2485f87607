//! Links the static library `vitrinehawk` from the directory named by `VITRINEHAWK_LIB`, or from `target/staticlib` of
//! the project.

use std::env;
use std::path::{Path, PathBuf};

fn main() {
    println!("cargo:rerun-if-env-changed=VITRINEHAWK_LIB");
    let directory = library_directory();
    let archive = directory.join("libvitrinehawk.a");
    println!("cargo:rerun-if-changed={}", archive.display());
    if !archive.exists() {
        let directory = directory.display();
        println!("cargo:warning=no libvitrinehawk.a in {directory}: build it there, or set VITRINEHAWK_LIB");
    }
    println!("cargo:rustc-link-search=native={}", directory.display());
    println!("cargo:rustc-link-lib=static=vitrinehawk");
    // For the test of the C header.
    println!("cargo:rustc-env=VITRINEHAWK_LIB_DIRECTORY={}", directory.display());
}

/// A relative path starts at this crate.
fn library_directory() -> PathBuf {
    let here = env::var_os("CARGO_MANIFEST_DIR").expect("set for build scripts");
    let given = env::var_os("VITRINEHAWK_LIB");
    Path::new(&here).join(given.unwrap_or_else(|| "../../target/staticlib".into()))
}
