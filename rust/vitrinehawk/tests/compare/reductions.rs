//! Reductions with scratch and buffers that are enough, just so or not.

use inputs::Case;
use reference::{Answer, PLACE};

use crate::comparison::Comparison;

/// Cases that need more places, or whose residuals have more words, are left out.
const MOST_PLACES: usize = 2_000;
const MOST_WORDS: usize = 20_000;

/// The places of scratch that a good case needs, and its residual.
pub fn need(case: &Case) -> Option<(usize, Vec<i32>)> {
    let Case { table, policy, log } = case;
    let places = reference::places_within(table, policy, log, MOST_PLACES).ok()?;
    let residual = reference::residual(table, policy, log, PLACE * places, MOST_WORDS).ok()?;
    Some((places, residual))
}

/// What has to be answered when so many words are lent.
pub fn expected(places: usize, residual: &[i32], scratch: usize, buffer: usize) -> Answer {
    if scratch / PLACE < places {
        Answer::refused(11, 0)
    } else if buffer < residual.len() {
        Answer::refused(12, 0)
    } else {
        Answer::accepted(residual.len())
    }
}

#[test]
fn good_reductions() {
    let mut comparison = Comparison::new(0xB002);
    let mut tried = 0;
    while tried < 4_000 {
        let case = Case::good(&mut comparison.random);
        let Some((places, residual)) = need(&case) else {
            continue;
        };
        tried += 1;
        let enough = PLACE * places;
        let mut scratches = vec![enough, enough + 1];
        if places > 0 {
            scratches.extend([enough - 1, enough - PLACE]);
        }
        let length = residual.len();
        for scratch in scratches {
            for buffer in [length - 1, length, length + 1, length + 20] {
                let answer = comparison.reduce(&case, scratch, buffer);
                assert_eq!(answer, expected(places, &residual, scratch, buffer), "{case:?}");
            }
        }
    }
    comparison.has_seen(&[0, 11, 12], 4_000);
}

#[test]
fn damaged_reductions() {
    let mut comparison = Comparison::new(0xB003);
    for _ in 0..40_000 {
        let case = Case::damaged(&mut comparison.random);
        let places = comparison.random.pick(&[0, 1, 3, 10, 100]);
        let scratch = PLACE * places + comparison.random.below(PLACE);
        let buffer = comparison.random.pick(&[0, 1, 5, 20, 100, 1_000]);
        comparison.reduce(&case, scratch, buffer);
    }
    comparison.has_seen(&[0, 1, 3, 5, 6, 7, 8, 9, 10, 11, 12], 100);
}

/// A residual is a policy again: its reduction over a longer log, and over the same.
#[test]
fn reductions_of_residuals() {
    let mut comparison = Comparison::new(0xB004);
    let mut changed = 0;
    for _ in 0..2_000 {
        let mut case = Case::good(&mut comparison.random);
        let whole = case.log.clone();
        case.log.truncate(8 * comparison.random.below(whole.len() / 8 + 1));
        let Some((_, residual)) = need(&case) else {
            continue;
        };
        case.policy = residual;
        let room = case.policy.len() + 1_000;
        let again = comparison.reduce(&case, PLACE * MOST_PLACES, room);
        assert_eq!(again, Answer::accepted(case.policy.len()));
        case.log = whole;
        let answer = comparison.reduce(&case, PLACE * MOST_PLACES, room);
        changed += usize::from(answer != again);
    }
    println!("{changed} residuals changed");
    assert!(changed > 300);
    comparison.has_seen(&[0], 2_000);
}
