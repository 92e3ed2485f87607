//! The sixteen examples, P1 to P16: numbers, places, counts and words.

use reference::{check_log, check_policy, dual, reduce, Answer};

/// send (open), consent (complete), believes (its argument is an input, open).
const T: [i32; 9] = [3, 0, 0, 2, 0, 1, 1, 1, 0];

const A: [i32; 16] = [0, 1, 7, 9, 100, 0, 0, 0, 1, 1, 9, 50, 0, 0, 0, 0];

const EMPTY: [i32; 0] = [];

const F: [i32; 17] = [8, 3, 0, 2, 0, 3, 1, 0, 1, 1, 1, 2, 2, 2, 1, 1, 1];

/// Reduces with so many words of scratch and buffer, both full of other words at first, and checks the scratch.
fn reduced(policy: &[i32], log: &[i32], scratch: usize, buffer: usize) -> (Answer, Vec<i32>) {
    let mut scratch = vec![-3; scratch];
    let mut buffer = vec![-5; buffer];
    let answer = reduce(&T, policy, log, &mut scratch, &mut buffer);
    assert!(scratch.iter().all(|word| *word == 0));
    (answer, buffer)
}

/// Checks that a policy has the residual, with just enough scratch and buffer and with one word less of each.
fn gives(policy: &[i32], log: &[i32], scratch: usize, residual: &[i32]) {
    let length = residual.len();
    let accepted = (Answer::accepted(length), residual.to_vec());
    assert_eq!(reduced(policy, log, scratch, length), accepted);

    let (answer, buffer) = reduced(policy, log, scratch + 16, length + 3);
    assert_eq!(answer, Answer::accepted(length));
    assert_eq!(buffer, [residual, &[0, 0, 0]].concat());

    let no_room = (Answer::refused(12, 0), vec![0; length - 1]);
    assert_eq!(reduced(policy, log, scratch, length - 1), no_room);
    if scratch > 0 {
        let no_scratch = (Answer::refused(11, 0), vec![0; length]);
        assert_eq!(reduced(policy, log, scratch - 1, length), no_scratch);
        assert_eq!(reduced(policy, log, scratch - 1, length - 1).0, Answer::refused(11, 0));
    }
}

/// Checks that a policy is refused by each call that asks of it, and leaves zeros.
fn refused(policy: &[i32], number: u32, place: usize) {
    let answer = Answer::refused(number, place);
    assert_eq!(check_policy(&T, policy), answer);
    assert_eq!(reduced(policy, &A, 170, 40), (answer, vec![0; 40]));
    let mut buffer = [7; 40];
    assert_eq!(dual(&T, policy, &mut buffer), answer);
    assert_eq!(buffer, [0; 40]);
}

/// So many all-ofs, one in the other, with plain true beside each.
fn nested(all_ofs: usize) -> Vec<i32> {
    let mut words = [6, 2, 1].repeat(all_ofs);
    words.push(1);
    words
}

#[test]
fn log_a_is_good() {
    assert_eq!(check_log(&T, &A), Answer::accepted(2));
    assert_eq!(check_log(&T, &EMPTY), Answer::accepted(0));
}

#[test]
fn p1_to_p4_atoms() {
    gives(&[2, 0, 3, 0, 7, 0, 9, 0, 100], &A, 0, &[1]);
    gives(&[2, 1, 2, 0, 9, 0, 51], &A, 0, &[0]);
    gives(&[2, 2, 1, 0, 9], &A, 0, &[2, 2, 1, 0, 9]);
    gives(&[3, 1, 2, 0, 9, 0, 51], &A, 0, &[1]);
}

#[test]
fn p5_and_p6_all_of() {
    gives(&[6, 2, 1, 2, 2, 1, 0, 9], &A, 0, &[2, 2, 1, 0, 9]);
    gives(&[6, 2, 2, 2, 1, 0, 9, 0], &A, 0, &[0]);
}

#[test]
fn p7_and_p8_times() {
    gives(&[4, 50, 0, 50, 0, 100], &A, 0, &[1]);
    gives(&[4, 51, 0, 50, 0, 100], &A, 0, &[0]);
}

#[test]
fn p9_and_p10_for_all() {
    let residual = [
        6, 2, 2, 2, 1, 0, 9, 8, 3, 1, 7, 9, 100, 2, 0, 3, 1, 0, 1, 1, 1, 2, 2, 2, 1, 1, 1,
    ];
    assert_eq!(residual.len(), 27);
    gives(&F, &A, 34, &residual);
    gives(&F, &EMPTY, 17, &F);
}

#[test]
fn p11_and_p12_exists() {
    let policy = [9, 1, 0, 2, 1, 2, 0, 9, 1, 0, 4, 0, 1, 0, 0, 100];
    gives(&policy, &A, 34, &[1]);
    gives(&policy, &EMPTY, 17, &[0]);
}

#[test]
fn p13_and_p14_modes() {
    refused(&[8, 1, 0, 2, 2, 1, 1, 0, 1], 7, 3);
    refused(&[8, 1, 0, 1, 1], 7, 0);
}

#[test]
fn p15_and_p16_levels() {
    assert_eq!(check_policy(&T, &nested(63)), Answer::accepted(64));
    gives(&nested(63), &A, 0, &[1]);
    refused(&nested(64), 4, 191);
}

#[test]
fn greatest_levels() {
    assert_eq!(check_policy(&T, &[1]), Answer::accepted(1));
    assert_eq!(check_policy(&T, &[6, 2, 1, 2, 2, 1, 0, 9]), Answer::accepted(2));
    assert_eq!(check_policy(&T, &F), Answer::accepted(3));
}

#[test]
fn duals() {
    let mut buffer = [9; 20];
    assert_eq!(dual(&T, &F, &mut buffer), Answer::accepted(17));
    let dual_of_f = [9, 3, 0, 2, 0, 3, 1, 0, 1, 1, 1, 2, 3, 2, 1, 1, 1];
    assert_eq!(buffer, *[&dual_of_f[..], &[0; 3]].concat());

    let policy = [
        7, 4, 0, 1, 4, 5, 0, 1, 0, 2, 9, 1, 1, 5, 6, 2, 1, 2, 1, 2, 1, 0, 0, 3, 7, 2, 1, 5, -1, 0, 1, 1, 0,
    ];
    let opposite = [
        6, 4, 1, 0, 5, 5, 0, 1, 0, 2, 8, 1, 1, 5, 6, 2, 1, 2, 1, 2, 1, 0, 0, 3, 6, 2, 0, 4, -1, 0, 1, 1, 0,
    ];
    let mut buffer = [9; 33];
    assert_eq!(dual(&T, &policy, &mut buffer), Answer::accepted(33));
    assert_eq!(buffer, opposite);
    let mut buffer = [9; 33];
    assert_eq!(dual(&T, &opposite, &mut buffer), Answer::accepted(33));
    assert_eq!(buffer, policy);
    let mut buffer = [9; 32];
    assert_eq!(dual(&T, &policy, &mut buffer), Answer::refused(12, 0));
    assert_eq!(buffer, [0; 32]);
}
