//! The logs that are checked.

use inputs::{counting_log, full_log, random_log, Random, FULL_LOG_TABLE};
use reference::Answer;

use crate::keys::one_key_log;

/// send (open), consent (complete), believes (its argument is an input, open), and two wide ones.
pub const TABLE: [i32; 15] = [3, 0, 0, 2, 0, 1, 1, 1, 0, 6, 3, 1, 4, 0, 0];

/// A predicate of [`TABLE`] with six arguments.
const WIDE: i32 = 3;

/// So many rows of a kind are cut into logs of the length that is measured, and the calls go round through the logs. A
/// full log of random atoms, checked again and again, took the hand-written check about half the time: most likely the
/// processor learns its jumps.
const ROWS: usize = 65_536;

/// The greatest number of rows in a log.
const MOST_ROWS: usize = 4_096;

/// A kind of logs.
pub struct Kind {
    pub name: &'static str,
    pub meaning: &'static str,
    pub table: &'static [i32],
    /// Rows with different atoms, to be cut into logs.
    pub make: fn() -> Vec<i32>,
}

/// The kinds that are measured.
pub const KINDS: [Kind; 4] = [
    Kind {
        name: "one number",
        meaning: "two predicates; one argument counts up, the others are equal",
        table: &FULL_LOG_TABLE,
        make: || full_log(ROWS),
    },
    Kind {
        name: "counting",
        meaning: "five predicates with one to six arguments; all arguments count up",
        table: &TABLE,
        make: || counting_log(&TABLE, ROWS),
    },
    Kind {
        name: "random",
        meaning: "five predicates with one to six arguments; the arguments are any words",
        table: &TABLE,
        make: || random_log(&mut Random::new(0x106), &TABLE, ROWS),
    },
    Kind {
        name: "one key",
        meaning: "the library's worst case: all rows share one of its keys and differ in the last argument only",
        table: &TABLE,
        make: || one_key_log(WIDE, MOST_ROWS),
    },
];

/// An accepted log with its end changed so that it is refused, and the answers.
pub fn refused_logs(table: &[i32], log: &[i32]) -> [(Vec<i32>, Answer); 7] {
    let (front, end) = log.split_at(log.len() - 8);
    let last = front.len() / 8;
    let with_end = |end: &[i32]| [front, end].concat();
    let with_word = |place: usize, word: i32| {
        let mut end = end.to_vec();
        end[place] = word;
        with_end(&end)
    };
    // The first row again, with another truth.
    let repeated = |truth: i32| with_end(&[&log[..1], &[truth], &log[2..8]].concat());
    [
        (with_word(0, -1), Answer::refused(9, last)),
        (with_word(0, table.len() as i32 / 3), Answer::refused(9, last)),
        (with_word(1, 2), Answer::refused(9, last)),
        (with_end(&[0, 1, 7, 7, 7, 0, 0, 7]), Answer::refused(9, last)),
        (repeated(1 - log[1]), Answer::refused(10, last)),
        (repeated(2), Answer::refused(9, last)),
        (with_end(&end[1..]), Answer::refused(8, 0)),
    ]
}
