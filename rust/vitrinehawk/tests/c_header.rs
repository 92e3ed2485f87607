//! The C header: C programs that include it are compiled, linked with the library and run.

use std::fs;
use std::path::{Path, PathBuf};
use std::process::{Command, Output};

/// Compiles a C program against the header and the library, and runs it.
fn run(source: &Path, name: &str) -> Output {
    let here = Path::new(env!("CARGO_MANIFEST_DIR"));
    let archive = Path::new(env!("VITRINEHAWK_LIB_DIRECTORY")).join("libvitrinehawk.a");
    let program = temporary(name);
    let compiled = Command::new("cc")
        .args(["-std=c99", "-Wall", "-Wextra", "-Wpedantic", "-Werror", "-I"])
        .arg(here.join("../../include"))
        .arg(source)
        .arg(&archive)
        .arg("-o")
        .arg(&program)
        .output()
        .expect("cc can be started");
    let messages = String::from_utf8_lossy(&compiled.stderr);
    assert!(compiled.status.success(), "the program does not compile:\n{messages}");
    Command::new(&program).output().expect("the program can be started")
}

fn temporary(name: &str) -> PathBuf {
    Path::new(env!("CARGO_TARGET_TMPDIR")).join(name)
}

#[test]
fn a_c_program_calls_the_library() {
    let here = Path::new(env!("CARGO_MANIFEST_DIR"));
    let output = run(&here.join("tests/c/header.c"), "header");
    assert_eq!(output.status.code(), Some(0), "the first check that fails");
}

#[test]
fn the_c_program_of_the_readme_runs() {
    let readme = include_str!("../../../README.md");
    let (_, behind) = readme.split_once("```c\n").expect("the README has a C program");
    let (program, _) = behind.split_once("```").expect("which ends");
    let source = temporary("readme.c");
    fs::write(&source, program).expect("it can be written");
    let output = run(&source, "readme");
    assert_eq!(String::from_utf8_lossy(&output.stdout), "question 7 at 0\n");
}
