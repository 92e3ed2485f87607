//! Every length of scratch and buffer up to a little more than enough.

use inputs::{Case, Random};
use reference::{Answer, PLACE};
use vitrinehawk::{audit, Refused};

use crate::comparison::Comparison;
use crate::reductions::{expected, need};

/// Small cases with something to do.
fn cases(random: &mut Random, count: usize, kind: fn(&mut Random) -> Case) -> Vec<(Case, usize, Vec<i32>)> {
    let mut cases = Vec::new();
    while cases.len() < count {
        let case = kind(random);
        if let Some((places, residual)) = need(&case) {
            if (1..=12).contains(&places) && (2..=80).contains(&residual.len()) {
                cases.push((case, places, residual));
            }
        }
    }
    cases
}

#[test]
fn every_length_of_scratch_and_buffer() {
    let mut comparison = Comparison::new(0xB005);
    for (case, places, residual) in cases(&mut comparison.random, 400, Case::good) {
        let enough = PLACE * places;
        let mut check = |scratch: usize, buffer: usize| {
            let answer = comparison.reduce(&case, scratch, buffer);
            assert_eq!(answer, expected(places, &residual, scratch, buffer), "{case:?}");
        };
        for scratch in 0..=enough + PLACE {
            check(scratch, residual.len());
            check(scratch, residual.len() - 1);
        }
        for buffer in 0..=residual.len() + 1 {
            check(enough, buffer);
            check(enough - 1, buffer);
        }
    }
    comparison.has_seen(&[0, 11, 12], 5_000);
}

/// An audit needs a limit of as many words as scratch or buffer, whichever needs more, and not one word more.
#[test]
fn audits_up_to_a_limit() {
    let seed = 0xB006;
    println!("seed {seed:#x}");
    let mut random = Random::new(seed);
    let mut by_buffer = 0;
    let mut tried = 0;
    while tried < 1_500 {
        let mut case = Case::good(&mut random);
        if random.once_in(3) {
            // Longer residuals than scratch.
            let copies = random.between(2, 40);
            case.policy = [&[6, copies as i32], &case.policy.repeat(copies)[..]].concat();
        }
        let Some((places, residual)) = need(&case) else {
            continue;
        };
        tried += 1;
        by_buffer += usize::from(residual.len() > PLACE * places);
        let exact = residual.len().max(PLACE * places);
        let limits = [exact, exact + 1, 4 * exact, exact - 1, residual.len() - 1, 0];
        for limit in limits {
            let answer = match audit(&case.table, &case.policy, &case.log, limit) {
                Ok(words) => {
                    assert_eq!(words, residual, "{case:?}");
                    Answer::accepted(words.len())
                }
                Err(Refused { refusal, place }) => Answer::refused(refusal.number(), place),
            };
            assert_eq!(answer, expected(places, &residual, limit, limit), "{limit} {case:?}");
        }
    }
    println!("{by_buffer} of {tried} need more buffer than scratch");
    assert!(by_buffer > 300 && tried - by_buffer > 300);
}
