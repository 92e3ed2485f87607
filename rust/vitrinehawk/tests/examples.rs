//! The sixteen examples, P1 to P16: every word of residual, buffer and scratch, and every refusal.

use vitrinehawk::{check_log, check_policy, dual, reduce, Refusal, Refused};

/// send (open), consent (complete), believes (its argument is an input, open).
const T: [i32; 9] = [3, 0, 0, 2, 0, 1, 1, 1, 0];

const A: [i32; 16] = [0, 1, 7, 9, 100, 0, 0, 0, 1, 1, 9, 50, 0, 0, 0, 0];

const EMPTY: [i32; 0] = [];

const F: [i32; 17] = [8, 3, 0, 2, 0, 3, 1, 0, 1, 1, 1, 2, 2, 2, 1, 1, 1];

type Outcome = Result<usize, Refused>;

fn refusal(refusal: Refusal, place: usize) -> Outcome {
    Err(Refused { refusal, place })
}

/// Reduces with so many words of scratch and buffer, both full of other words at first, and checks the scratch.
fn reduced(policy: &[i32], log: &[i32], scratch: usize, buffer: usize) -> (Outcome, Vec<i32>) {
    let mut scratch = vec![-3; scratch];
    let mut buffer = vec![-5; buffer];
    let outcome = reduce(&T, policy, log, &mut scratch, &mut buffer);
    assert!(scratch.iter().all(|word| *word == 0));
    (outcome, buffer)
}

/// Checks that a policy has the residual: with just enough scratch and buffer, with more, and with one word less of
/// each.
fn gives(policy: &[i32], log: &[i32], scratch: usize, residual: &[i32]) {
    let length = residual.len();
    assert_eq!(reduced(policy, log, scratch, length), (Ok(length), residual.to_vec()));
    let more = [residual, &[0, 0, 0]].concat();
    assert_eq!(reduced(policy, log, scratch + 16, length + 3), (Ok(length), more));

    let no_room = (refusal(Refusal::Room, 0), vec![0; length - 1]);
    assert_eq!(reduced(policy, log, scratch, length - 1), no_room);
    if scratch > 0 {
        for buffer in [length, length - 1] {
            let no_scratch = (refusal(Refusal::Scratch, 0), vec![0; buffer]);
            assert_eq!(reduced(policy, log, scratch - 1, buffer), no_scratch);
        }
    }
}

/// Checks that a policy is refused by each call that asks of it, and leaves zeros.
fn is_refused(policy: &[i32], number: Refusal, place: usize) {
    let outcome = refusal(number, place);
    assert_eq!(check_policy(&T, policy), outcome);
    assert_eq!(reduced(policy, &A, 170, 40), (outcome, vec![0; 40]));
    assert_eq!(reduced(policy, &A, 0, 0), (outcome, vec![]));
    let mut buffer = [7; 40];
    assert_eq!(dual(&T, policy, &mut buffer), outcome);
    assert_eq!(buffer, [0; 40]);
}

/// So many all-ofs, one in the other, with plain true beside each.
fn nested(all_ofs: usize) -> Vec<i32> {
    [[6, 2, 1].repeat(all_ofs), vec![1]].concat()
}

#[test]
fn log_a_is_good() {
    assert_eq!(check_log(&T, &A), Ok(2));
    assert_eq!(check_log(&T, &EMPTY), Ok(0));
}

#[test]
fn p1_to_p4_atoms() {
    gives(&[2, 0, 3, 0, 7, 0, 9, 0, 100], &A, 0, &[1]);
    gives(&[2, 1, 2, 0, 9, 0, 51], &A, 0, &[0]);
    gives(&[2, 2, 1, 0, 9], &A, 0, &[2, 2, 1, 0, 9]);
    gives(&[3, 1, 2, 0, 9, 0, 51], &A, 0, &[1]);
}

#[test]
fn p5_and_p6_all_of() {
    gives(&[6, 2, 1, 2, 2, 1, 0, 9], &A, 0, &[2, 2, 1, 0, 9]);
    gives(&[6, 2, 2, 2, 1, 0, 9, 0], &A, 0, &[0]);
}

#[test]
fn p7_and_p8_times() {
    gives(&[4, 50, 0, 50, 0, 100], &A, 0, &[1]);
    gives(&[4, 51, 0, 50, 0, 100], &A, 0, &[0]);
}

#[test]
fn p9_and_p10_for_all() {
    let residual = [
        6, 2, 2, 2, 1, 0, 9, 8, 3, 1, 7, 9, 100, 2, 0, 3, 1, 0, 1, 1, 1, 2, 2, 2, 1, 1, 1,
    ];
    assert_eq!(residual.len(), 27);
    gives(&F, &A, 34, &residual);
    gives(&F, &EMPTY, 17, &F);
}

#[test]
fn p11_and_p12_exists() {
    let policy = [9, 1, 0, 2, 1, 2, 0, 9, 1, 0, 4, 0, 1, 0, 0, 100];
    gives(&policy, &A, 34, &[1]);
    gives(&policy, &EMPTY, 17, &[0]);
}

#[test]
fn p13_and_p14_modes() {
    is_refused(&[8, 1, 0, 2, 2, 1, 1, 0, 1], Refusal::Mode, 3);
    is_refused(&[8, 1, 0, 1, 1], Refusal::Mode, 0);
}

#[test]
fn p15_and_p16_levels() {
    assert_eq!(check_policy(&T, &nested(63)), Ok(64));
    gives(&nested(63), &A, 0, &[1]);
    is_refused(&nested(64), Refusal::Level, 191);
}

/// A first part of the log and then the whole, or the whole at once: the same residual.
#[test]
fn in_two_rounds_or_one() {
    let log = [A.to_vec(), vec![2, 1, 9, 0, 0, 0, 0, 0]].concat();
    let (outcome, first) = reduced(&F, &log[..8], 34, 27);
    assert_eq!(outcome, Ok(27));
    let rest = [8, 3, 1, 7, 9, 100, 2, 0, 3, 1, 0, 1, 1, 1, 2, 2, 2, 1, 1, 1];
    assert_eq!(reduced(&first, &log, 34, 20), (Ok(20), rest.to_vec()));
    assert_eq!(reduced(&F, &log, 34, 20), (Ok(20), rest.to_vec()));
}
