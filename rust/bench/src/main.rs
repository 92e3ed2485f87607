//! Measures the library against the reference and, for some calls, against hand-written code: same run, same inputs, in
//! turns.
//!
//! The policies have 1,048,576 words, the greatest number allowed, or nearly. The logs have 256, 1,024 and 4,096 rows,
//! to see whether the time grows with the rows; 4,096 is the greatest number allowed. What is reduced is said with each
//! input.
//!
//! The reference reads a policy and its text into trees, a log's text into records of fields, and keeps the rows of a
//! log in a hash table, so a ratio to it that is below 1 says little about the library alone. Of the hand-written code,
//! the log check, the writing of a log, and reading and writing of a policy allocate nothing, like the library, unless
//! a policy that is read does not fit the buffer; the reading of a log allocates the rows, the reduction the residual,
//! a list of the policy's quantifiers and a hash table of tuples.

mod hospital;
mod keys;
mod logs;
mod measure;
mod peer;
mod policy_texts;
mod reductions;
mod report;
mod texts;
mod words;

use std::hint::black_box;

use inputs::{long_policy, Random};
use keys::{Chains, KEYS};
use logs::{refused_logs, Kind, KINDS, TABLE};
use measure::{agreed, Call, Lent, Room, Times, BATCH, GARBAGE, REPETITIONS, SELDOM, SLOW};
use reference::Answer;
use report::{print_heads, row, IMPLEMENTATIONS};
use vitrinehawk::Refused;

const WORDS: usize = 1_048_576;
const ROWS: [usize; 3] = [256, 1_024, 4_096];

fn main() {
    println!("Microseconds for a call, {REPETITIONS} measurements of each implementation, in turns.");
    println!("A call of less than {BATCH:?} is repeated in a batch that takes at least as long.");
    println!("One that takes more than {SLOW:?} has one turn in {SELDOM}.");
    println!("Scratch and buffers were not cleared first: before each call they were filled with {GARBAGE}, outside the time.");
    println!();
    print_heads();
    policies();
    let measured = logs();
    let texts = texts::measure_all();
    let policy_texts = policy_texts::measure_all();
    let reductions = reductions::measure_all();
    println!();
    println!("The ratios are those of the medians.");
    println!();
    print_rows(&measured);
    println!();
    texts::print(&texts);
    println!();
    policy_texts::print(&policy_texts);
    println!();
    reductions::print(&reductions);
}

/// Measures the calls that are given a policy.
fn policies() {
    let policy = &long_policy(&mut Random::new(0xBE7C), &TABLE, WORDS);
    row(
        &format!("check policy, {WORDS} words"),
        1,
        Lent::NOTHING,
        &[
            &|_, _| library(vitrinehawk::check_policy(&TABLE, black_box(policy))),
            &|_, _| reference::check_policy(&TABLE, black_box(policy)),
        ],
    );
    row(
        &format!("dual, {WORDS} words"),
        1,
        Room {
            buffer: WORDS,
            ..Lent::NOTHING
        },
        &[
            &|_, lent| library(vitrinehawk::dual(&TABLE, black_box(policy), &mut lent.buffer)),
            &|_, lent| reference::dual(&TABLE, black_box(policy), &mut lent.buffer),
        ],
    );
}

/// The log check on logs of one kind and with so many rows.
struct LogCheck {
    name: String,
    rows: usize,
    times: Vec<Times>,
    chains: Chains,
}

/// Compares and measures the log check.
fn logs() -> Vec<LogCheck> {
    let mut measured = Vec::new();
    for Kind { name, table, make, .. } in KINDS {
        let words = make();
        for rows in ROWS {
            let name = format!("check log, {name}, {rows} rows");
            let logs: Vec<_> = words.chunks(8 * rows).collect();
            for (log, expected) in refused_logs(table, logs[0]) {
                let answer = with_log_checks(table, &[&log], |calls| agreed(&name, 0, Lent::NOTHING, calls));
                assert_eq!(answer, expected, "{name}: the answer to a bad log");
            }
            measured.push(LogCheck {
                times: with_log_checks(table, &logs, |calls| row(&name, logs.len(), Lent::NOTHING, calls)),
                name,
                rows,
                chains: Chains::of(&logs),
            });
        }
    }
    measured
}

/// Does something with the calls that check the logs.
fn with_log_checks<T>(table: &[i32], logs: &[&[i32]], work: impl FnOnce(&[Call]) -> T) -> T {
    let log = |input: usize| black_box(logs[input % logs.len()]);
    work(&[
        &|input, _| library(vitrinehawk::check_log(table, log(input))),
        &|input, _| reference::check_log(table, log(input)),
        &|input, _| answer(peer::check_log(table, log(input))),
    ])
}

/// The answer that a result stands for.
fn answer(result: Result<usize, (u32, usize)>) -> Answer {
    match result {
        Ok(count) => Answer::accepted(count),
        Err((number, place)) => Answer::refused(number, place),
    }
}

/// The answer of the library.
fn library(result: Result<usize, Refused>) -> Answer {
    answer(result.map_err(|refused| (refused.refusal.number(), refused.place)))
}

/// Prints the time for a row of a log, and how the rows fall on the keys.
fn print_rows(measured: &[LogCheck]) {
    println!("Nanoseconds for a row of a log, medians.");
    println!("Longest: the most rows of a log that share one of the library's {KEYS} keys.");
    println!("Earlier: how many earlier rows share a row's key, on average.");
    println!();
    print!("{:<32}", "");
    for implementation in IMPLEMENTATIONS {
        print!(" {implementation:>12}");
    }
    println!(" {:>8} {:>8}", "longest", "earlier");
    for check in measured {
        print!("{:<32}", check.name);
        for times in &check.times {
            print!(" {:>12.2}", times.median() * 1e9 / check.rows as f64);
        }
        println!(" {:>8} {:>8.2}", check.chains.longest, check.chains.earlier);
    }
    println!();
    for Kind { name, meaning, .. } in KINDS {
        println!("{name}: {meaning}.");
    }
}
