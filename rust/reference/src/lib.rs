//! An independent implementation of the calls, for comparison.
//!
//! It is written for its readers: a policy is read into a tree of enums, the trees are worked on by plain recursion
//! (an accepted policy has at most 64 levels), and the result is written back as words. The text of a log is read into
//! records of fields, and these into rows; the text of a policy into a tree, and this into words. Nothing here is
//! proved.
//!
//! ```
//! use reference::{check_policy, Answer};
//!
//! let table = [3, 0, 0, 2, 0, 1, 1, 1, 0];
//! assert_eq!(check_policy(&table, &[2, 1, 2, 0, 9, 0, 51]), Answer::accepted(1));
//! assert_eq!(check_policy(&table, &[8, 1, 0, 1, 1]), Answer::refused(7, 0));
//! ```

mod answer;
pub mod csv;
mod dual;
pub mod listing;
mod log;
mod log_text;
mod mode;
mod policy_text;
mod reader;
mod reduction;
mod table;
pub mod tptp;
pub mod tree;
pub mod truth;

pub use answer::{Answer, Question, Refused};
pub use log::{GroundAtom, Log, ROW};
pub use policy_text::words_of;
pub use reader::{Policy, MOST_WORDS};
pub use table::{read_table, Predicate};

use reduction::{Reducer, Residual};

/// The words of one place of scratch.
pub const PLACE: usize = 17;

/// Checks a policy (questions 1 to 7). The count is the greatest level.
pub fn check_policy(table: &[i32], policy: &[i32]) -> Answer {
    let policy = read_table(table).and_then(|predicates| Policy::read(&predicates, policy));
    policy.map(|policy| policy.greatest_level).into()
}

/// Checks a log (questions 1 and 8 to 10). The count is the number of rows.
pub fn check_log(table: &[i32], log: &[i32]) -> Answer {
    read_table(table)
        .and_then(|predicates| Ok(Log::read(&predicates, log)?.rows()))
        .into()
}

/// Writes the dual of a policy (questions 1 to 7 and 12). The count is its length.
///
/// Behind the dual the buffer has zeros; if the call is refused, zeros only.
pub fn dual(table: &[i32], policy: &[i32], buffer: &mut [i32]) -> Answer {
    buffer.fill(0);
    read_table(table)
        .and_then(|predicates| Policy::read(&predicates, policy))
        .and_then(|policy| put(&dual::dual(policy.root).to_words(), buffer))
        .into()
}

/// Writes the residual of a policy over a log (questions 1 to 12). The count is its length.
///
/// Behind the residual the buffer has zeros; if the call is refused, zeros only. Scratch is zero afterwards.
pub fn reduce(table: &[i32], policy: &[i32], log: &[i32], scratch: &mut [i32], buffer: &mut [i32]) -> Answer {
    scratch.fill(0);
    buffer.fill(0);
    residual(table, policy, log, scratch.len(), buffer.len())
        .and_then(|words| put(&words, buffer))
        .into()
}

/// Reads a log from comma-separated text and writes its words (questions 1, 13, 14, 8, 10 and 12). The count is the
/// number of rows.
///
/// Behind the rows the buffer has zeros; if the call is refused, zeros only.
pub fn read_log(table: &[i32], text: &[u8], buffer: &mut [i32]) -> Answer {
    buffer.fill(0);
    log_of_text(table, text)
        .and_then(|words| Ok(put(&words, buffer)? / ROW))
        .into()
}

/// Writes a log as comma-separated text (questions 1, 8 to 10 and 12). The count is the number of bytes.
///
/// Behind the text the buffer has zeros; if the call is refused, zeros only.
pub fn write_log(table: &[i32], log: &[i32], buffer: &mut [u8]) -> Answer {
    buffer.fill(0);
    text_of_log(table, log).and_then(|text| put(&text, buffer)).into()
}

/// Reads a policy from text in the TPTP typed form and writes its words (questions 1, 15, 2 to 7 and 12; question 4
/// also of the text's parentheses). The count is the number of words.
///
/// Behind the words the buffer has zeros; if the call is refused, zeros only.
pub fn read_policy(table: &[i32], text: &[u8], buffer: &mut [i32]) -> Answer {
    buffer.fill(0);
    policy_of_text(table, text).and_then(|words| put(&words, buffer)).into()
}

/// Writes a policy as text in the TPTP typed form (questions 1 to 7 and 12). The count is the number of bytes.
///
/// Behind the text the buffer has zeros; if the call is refused, zeros only.
pub fn write_policy(table: &[i32], policy: &[i32], buffer: &mut [u8]) -> Answer {
    buffer.fill(0);
    text_of_policy(table, policy).and_then(|text| put(&text, buffer)).into()
}

/// The words of a log that is given as text (questions 1, 13, 14, 8 and 10).
pub fn log_of_text(table: &[i32], text: &[u8]) -> Result<Vec<i32>, Refused> {
    let predicates = read_table(table)?;
    let records = csv::read_records(text)?;
    let words = log_text::read_rows(&predicates, &records)?;
    // Each row is good already, so that questions 8 and 10 are left.
    Log::read(&predicates, &words)?;
    Ok(words)
}

/// The text of a log (questions 1 and 8 to 10).
pub fn text_of_log(table: &[i32], log: &[i32]) -> Result<Vec<u8>, Refused> {
    let predicates = read_table(table)?;
    Log::read(&predicates, log)?;
    Ok(log_text::write_rows(&predicates, log))
}

/// The words of a policy that is given as text (questions 1, 15 and 2 to 7).
pub fn policy_of_text(table: &[i32], text: &[u8]) -> Result<Vec<i32>, Refused> {
    let predicates = read_table(table)?;
    let words = words_of(&tptp::read_tree(text)?);
    Policy::read(&predicates, &words)?;
    Ok(words)
}

/// The text of a policy (questions 1 to 7).
pub fn text_of_policy(table: &[i32], policy: &[i32]) -> Result<Vec<u8>, Refused> {
    let predicates = read_table(table)?;
    let policy = Policy::read(&predicates, policy)?;
    Ok(policy_text::text_of(&policy.root).into_bytes())
}

/// The places of scratch that reducing a policy over a log needs (questions 1 to 10).
pub fn places(table: &[i32], policy: &[i32], log: &[i32]) -> Result<usize, Refused> {
    places_within(table, policy, log, usize::MAX)
}

/// The same, if the need is at most so many places (question 11).
pub fn places_within(table: &[i32], policy: &[i32], log: &[i32], most: usize) -> Result<usize, Refused> {
    let predicates = read_table(table)?;
    let policy = Policy::read(&predicates, policy)?;
    let log = Log::read(&predicates, log)?;
    reduction::places(&log, &policy.root, most).ok_or(Question::Scratch.at(0))
}

/// The words of the residual, if so many words of scratch and a buffer of so many are enough (questions 1 to 12).
pub fn residual(table: &[i32], policy: &[i32], log: &[i32], scratch: usize, room: usize) -> Result<Vec<i32>, Refused> {
    let predicates = read_table(table)?;
    let policy = Policy::read(&predicates, policy)?;
    let log = Log::read(&predicates, log)?;
    reduction::places(&log, &policy.root, scratch / PLACE).ok_or(Question::Scratch.at(0))?;
    let reducer = Reducer {
        log: &log,
        most: room.min(MOST_WORDS),
    };
    match reducer.reduce(&policy.root) {
        Residual::Plain(value) => Ok(vec![i32::from(value)]),
        Residual::Open(formula, _) => Ok(formula.to_words()),
        Residual::TooLong => Err(Question::Room.at(0)),
    }
}

/// Question 12: puts the words or bytes at the front of the buffer.
fn put<T: Copy>(result: &[T], buffer: &mut [T]) -> Result<usize, Refused> {
    let front = buffer.get_mut(..result.len());
    front.ok_or(Question::Room.at(0))?.copy_from_slice(result);
    Ok(result.len())
}
