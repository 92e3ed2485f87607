//! The log check, logs and policies as text and the reduction as one would write them by hand for speed.
//!
//! They are the measure for the library, and nothing else uses them. A policy stays words: the check notes where each
//! quantifier's restriction and body begin, and the walk goes over the words. Environments lie in the lent scratch, one
//! place each. Ground atoms are looked up in an open-addressing hash table, rows are bucketed by predicate, and the
//! instances of a quantifier are told apart by a hash table too. The residual is written in one pass, and so is a text.

mod instances;
mod joining;
mod listing;
mod log;
mod log_text;
mod policy;
mod policy_text;
mod reduction;
#[cfg(test)]
mod tests;

pub use log::check_log;
pub use log_text::{read_log, write_log};
pub use policy_text::{read_policy, write_policy};

use listing::{Lists, WORDS};
use log::{check_table, Index, Slots, SLOTS};
use reduction::Walk;

/// The question answered with "no", and its place.
pub type Refused = (u32, usize);

/// The greatest number of words of a policy or a residual.
const MOST_WORDS: usize = 1_048_576;

/// Writes the residual of a policy over a log to the front of a buffer (questions 1 to 12) and returns its length.
///
/// Behind the residual the buffer has zeros; if the call is refused, zeros only. Scratch is zero afterwards.
pub fn reduce(
    table: &[i32],
    policy: &[i32],
    log: &[i32],
    scratch: &mut [i32],
    buffer: &mut [i32],
) -> Result<usize, Refused> {
    let residual = residual(table, policy, log, scratch, buffer.len());
    scratch.fill(0);
    let words = residual.as_deref().unwrap_or(&[]);
    let (front, rest) = buffer.split_at_mut(words.len());
    front.copy_from_slice(words);
    rest.fill(0);
    residual.map(|words| words.len())
}

/// The words of the residual, if there is room for them.
fn residual(table: &[i32], policy: &[i32], log: &[i32], scratch: &mut [i32], room: usize) -> Result<Vec<i32>, Refused> {
    let predicates = check_table(table)?;
    let quantifiers = policy::check(predicates, policy)?;
    let slots: &mut Slots = &mut [0; SLOTS];
    let rows = log::check_rows(predicates, log, slots)?;
    let index = &Index::new(predicates, rows, slots);
    let places = scratch.as_chunks_mut::<WORDS>().0;
    let lists = Lists::new(policy, index, places);
    let most = room.min(MOST_WORDS);
    let mut walk = Walk::new(policy, &quantifiers, index, lists, most);
    let words = walk.policy().ok_or((11, 0))?.ok_or((12, 0))?;
    if words.len() > most {
        return Err((12, 0));
    }
    Ok(words)
}
