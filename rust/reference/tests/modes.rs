//! Boundary cases of question 7: the mode rule.

use reference::{check_policy, Answer};

/// send (open), consent (complete), believes (its argument is an input, open).
const T: [i32; 9] = [3, 0, 0, 2, 0, 1, 1, 1, 0];

#[track_caller]
fn accepted(policy: &[i32], level: usize) {
    assert_eq!(check_policy(&T, policy), Answer::accepted(level), "{policy:?}");
}

#[track_caller]
fn refused(policy: &[i32], number: u32, place: usize) {
    assert_eq!(check_policy(&T, policy), Answer::refused(number, place), "{policy:?}");
}

#[test]
fn question_7_atoms() {
    // Outer variables are bound from the start; inputs have to be bound before.
    let outer = [8, 1, 0, 2, 1, 2, 0, 0, 1, 0];
    let inner = |restriction: &[i32]| [&outer[..], &[9, 1, 0], restriction, &[1]].concat();
    let place = 13;
    accepted(&inner(&[6, 2, 2, 2, 1, 1, 0, 2, 1, 2, 1, 0, 1, 1]), 6);
    refused(&inner(&[6, 2, 2, 2, 1, 1, 1, 2, 1, 2, 1, 0, 1, 1]), 7, place + 2);
    accepted(&inner(&[6, 2, 2, 1, 2, 1, 0, 1, 1, 2, 2, 1, 1, 1]), 6);
    // Tags 3, 4 and 5 need all of theirs bound and bind nothing.
    for test in [&[3, 1, 2, 1, 0, 1, 1][..], &[4, 0, 1, 0, 1, 1], &[5, 0, 1, 1, 1, 0]] {
        let bind = [2, 1, 2, 1, 0, 1, 1];
        accepted(&inner(&[&[6, 2], &bind[..], test].concat()), 6);
        refused(&inner(&[&[6, 2], test, &bind[..]].concat()), 7, place + 2);
        refused(&inner(test), 7, place);
    }
    for test in [&[3, 1, 2, 1, 0, 1, 0][..], &[4, 0, 1, 0, 1, 0], &[0], &[1]] {
        refused(&inner(test), 7, 10);
    }
    // An input that is bound by the same atom only.
    let table = [2, 1, 0];
    let atom = |first: i32, second: i32| [8, 1, 0, 2, 0, 2, first, 0, second, 0, 1];
    assert_eq!(check_policy(&table, &atom(0, 1)), Answer::accepted(3));
    assert_eq!(check_policy(&table, &atom(1, 0)), Answer::refused(7, 3));
    assert_eq!(check_policy(&table, &atom(1, 1)), Answer::refused(7, 3));
    assert_eq!(check_policy(&table, &atom(0, 0)), Answer::refused(7, 0));
}

#[test]
fn question_7_any_of() {
    let two = |restriction: &[i32]| [&[9, 2, 0], restriction, &[1]].concat();
    let both = [2, 1, 2, 1, 0, 1, 1];
    let first = [2, 1, 2, 1, 0, 0, 5];
    let second = [2, 1, 2, 0, 5, 1, 1];
    accepted(&two(&[&[7, 2], &both[..], &both].concat()), 4);
    refused(&two(&[&[7, 2], &both[..], &first].concat()), 7, 0);
    refused(&two(&[&[7, 2], &first[..], &second].concat()), 7, 0);
    // A branch does not see what its neighbour binds.
    let test = [4, 0, 1, 0, 1, 1];
    refused(&two(&[&[7, 2], &both[..], &test].concat()), 7, 3 + 2 + 7);
    // Behind the any-of what all branches bind counts.
    accepted(&two(&[&[6, 2, 7, 2], &both[..], &first, &second].concat()), 5);
    accepted(&two(&[&[6, 3, 7, 2], &both[..], &both, &test, &[1]].concat()), 5);
    refused(
        &two(&[&[6, 3, 7, 2], &both[..], &first, &test, &both].concat()),
        7,
        3 + 4 + 14,
    );
    // Plain false binds nothing, though it lists nothing.
    refused(&two(&[&[7, 2], &both[..], &[0]].concat()), 7, 0);
    accepted(&two(&[&[6, 2, 7, 2], &both[..], &[0], &both].concat()), 5);
}

#[test]
fn question_7_some() {
    // "Some" is judged behind its child, the quantifier behind its restriction.
    refused(&[8, 1, 0, 10, 1, 1], 7, 3);
    refused(&[8, 1, 0, 10, 2, 1, 2, 0, 0, 1, 1, 1], 7, 0);
    refused(&[8, 1, 0, 10, 2, 1, 2, 0, 0, 1, 0, 1], 7, 3);
    refused(&[8, 1, 0, 10, 10, 2, 1, 2, 1, 0, 1, 1, 1], 7, 4);
    refused(&[8, 1, 0, 10, 10, 2, 1, 2, 1, 0, 1, 2, 1], 7, 3);
    refused(&[8, 1, 0, 10, 10, 4, 0, 1, 0, 0, 0, 1], 7, 5);
    // Its variable is dropped: the next one of the same number starts unbound.
    let both = [2, 1, 2, 1, 0, 1, 1];
    refused(
        &[&[8, 1, 0, 6, 2, 10], &both[..], &[10, 4, 0, 1, 1, 1, 0, 1]].concat(),
        7,
        5 + 9,
    );
    // What else its child binds stays.
    accepted(&[&[8, 1, 0, 6, 2, 10], &both[..], &[4, 0, 1, 0, 0, 0, 1]].concat(), 5);
}

#[test]
fn question_7_order() {
    // A quantifier comes after its restriction and before its body.
    let bad_body = [8, 1, 0, 1, 1];
    refused(&[&[8, 1, 0, 1], &bad_body[..]].concat(), 7, 0);
    refused(&[&[8, 1, 0, 2, 1, 2, 0, 0, 1, 0], &bad_body[..]].concat(), 7, 10);
    refused(&[&[8, 1, 0, 3, 1, 2, 0, 0, 1, 0], &bad_body[..]].concat(), 7, 3);
    refused(&[&[6, 2], &bad_body[..], &bad_body].concat(), 7, 2);
    refused(
        &[&[7, 3, 1, 8, 1, 0, 2, 1, 2, 0, 0, 1, 0, 0], &bad_body[..]].concat(),
        7,
        14,
    );
    // In a restriction the first atom in preorder.
    refused(&[8, 2, 0, 6, 2, 3, 2, 1, 1, 1, 3, 2, 1, 1, 0, 1], 7, 5);
}
