//! The printed text, which documents may quote.

use std::process::Command;

/// After a change on purpose, write the program's output to this file.
const EXPECTED: &str = include_str!("output.txt");

#[test]
fn the_output_is_as_expected() {
    let output = Command::new(env!("CARGO_BIN_EXE_demo")).output().expect("it runs");
    assert!(output.status.success());
    let printed = String::from_utf8(output.stdout).expect("text");
    for (number, (line, expected)) in printed.lines().zip(EXPECTED.lines()).enumerate() {
        assert_eq!(line, expected, "line {}", number + 1);
    }
    assert_eq!(printed, EXPECTED);
}

#[test]
fn the_output_fits_two_screens() {
    assert!(EXPECTED.lines().count() <= 90);
    let fits = |line: &str| line.is_ascii() && line.len() <= 100 && line.trim_end() == line;
    assert!(EXPECTED.lines().all(fits));
}
