//! Boundary cases of questions 2 to 6, and the order in which they are put.

use reference::{check_policy, Answer};

/// send (open), consent (complete), believes (its argument is an input, open).
const T: [i32; 9] = [3, 0, 0, 2, 0, 1, 1, 1, 0];

/// consent(0, 0), an atom of level 1.
const ATOM: [i32; 7] = [2, 1, 2, 0, 0, 0, 0];

#[track_caller]
fn accepted(policy: &[i32], level: usize) {
    assert_eq!(check_policy(&T, policy), Answer::accepted(level), "{policy:?}");
}

#[track_caller]
fn refused(policy: &[i32], number: u32, place: usize) {
    assert_eq!(check_policy(&T, policy), Answer::refused(number, place), "{policy:?}");
}

/// So many times an all-of with plain true and, behind it, what follows.
fn deep(all_ofs: usize, inner: &[i32]) -> Vec<i32> {
    let mut words = [6, 2, 1].repeat(all_ofs);
    words.extend(inner);
    words
}

#[test]
fn question_2() {
    refused(&[], 2, 0);
    assert_eq!(check_policy(&[], &[]), Answer::refused(1, 0));
    let wide = |words: i32| {
        let mut policy = vec![6, words - 2];
        policy.resize(words as usize, 1);
        policy
    };
    accepted(&wide(1_048_576), 2);
    refused(&wide(1_048_577), 2, 0);
    // Nothing else is looked at in so long a policy.
    refused(&vec![77; 1_048_577], 2, 0);
    refused(&vec![77; 1_048_576], 3, 0);
}

#[test]
fn question_3_tags() {
    for tag in [-1, 10, 11, i32::MIN, i32::MAX] {
        refused(&[tag, 1, 1, 1, 1, 1, 1], 3, 0);
        refused(&[6, 2, 1, tag, 1, 1, 1, 1], 3, 3);
    }
    // In restrictions: no quantifier, but "some".
    for tag in [-1, 8, 9, 11, i32::MIN, i32::MAX] {
        refused(&[8, 1, 0, tag, 1, 0, 1, 1, 1], 3, 3);
        refused(&[8, 1, 0, 6, 2, 1, tag, 1, 0, 1, 1, 1], 3, 6);
        refused(&[8, 1, 0, 10, tag, 1, 0, 1, 1, 1], 3, 4);
    }
    // No "some" in bodies.
    refused(&[9, 1, 0, 2, 1, 2, 0, 0, 1, 0, 10, 1], 3, 10);
}

#[test]
fn question_3_cut_off() {
    // Each node cut off within its own words: its first word.
    let atom = [2, 0, 3, 0, 7, 0, 9, 0, 100];
    for length in 1..atom.len() {
        refused(&atom[..length], 3, 0);
        refused(&[&[7, 2, 0], &atom[..length]].concat(), 3, 3);
    }
    let time = [5, 50, 0, 50, 0, 100];
    for length in 1..time.len() {
        refused(&time[..length], 3, 0);
    }
    refused(&[6], 3, 0);
    refused(&[7, 2, 1, 7], 3, 3);
    let quantifier = [8, 2, 3, 1, 1, 2, 2, 3, 3];
    for length in 1..quantifier.len() {
        refused(&quantifier[..length], 3, 0);
    }
    // A missing node: the length.
    refused(&quantifier, 3, 9);
    refused(&[6, 2], 3, 2);
    refused(&[6, 2, 1], 3, 3);
    refused(&[8, 1, 0, 10], 3, 4);
    refused(&[8, 1, 0, 2, 1, 2, 0, 0, 1, 0], 3, 10);
    refused(&[8, 1, 0, 6, 2, 1], 3, 6);
    refused(&[6, 3, 6, 2, 1, 1, 1], 3, 7);
    // Words behind the tree: the first of them.
    refused(&[1, 1], 3, 1);
    refused(&[0, -7, 6], 3, 1);
    refused(&[6, 2, 1, 1, 1, 1], 3, 4);
    refused(&[&ATOM[..], &[0, 0]].concat(), 3, 7);
}

#[test]
fn question_3_counts_and_kinds() {
    for n in [-1, 0, 7, i32::MIN, i32::MAX] {
        refused(&[2, 0, n, 0, 1, 0, 1, 0, 1, 0, 1, 0, 1, 0, 1, 0, 1], 3, 0);
        refused(&[3, 0, n, 0, 1, 0, 1, 0, 1, 0, 1, 0, 1, 0, 1, 0, 1], 3, 0);
    }
    for n in [-1, 0, 1, i32::MIN] {
        refused(&[6, n, 1, 1], 3, 0);
        refused(&[7, n, 1, 1], 3, 0);
    }
    refused(&[6, i32::MAX, 1, 1], 3, 4);
    refused(&[8, 1, 0, 7, i32::MAX, 1, 1], 3, 7);
    for v in [-1, 0, 5, i32::MIN, i32::MAX] {
        refused(&[8, v, 0, 1, 1], 3, 0);
        refused(&[9, v, 1, 1, 1], 3, 0);
    }
    for m in [-1, i32::MIN, i32::MAX, 1 << 30, (1 << 30) + 1] {
        for v in 1..=4 {
            refused(&[8, v, m, 1, 1], 3, 0);
        }
    }
    for kind in [-1, 2, i32::MIN, i32::MAX] {
        for term in 0..3 {
            let mut atom = [3, 0, 3, 0, 0, 0, 0, 0, 0];
            atom[3 + 2 * term] = kind;
            refused(&atom, 3, 0);
        }
        refused(&[4, 0, kind, 0, 0, 0], 3, 0);
        refused(&[5, 0, 0, 0, kind, 0], 3, 0);
    }
}

#[test]
fn question_4_levels() {
    accepted(&deep(63, &[1]), 64);
    refused(&deep(64, &[1]), 4, 192 - 1);
    let with_first_child = |all_ofs: usize, inner: &[i32]| {
        let mut words = [6, 2].repeat(all_ofs);
        words.extend(inner);
        words.extend([1].repeat(all_ofs));
        words
    };
    accepted(&with_first_child(63, &ATOM), 64);
    refused(&with_first_child(64, &ATOM), 4, 128);
    // A quantifier costs 2 and its restriction and body count from it.
    let exists = [9, 1, 0, 2, 1, 2, 0, 0, 1, 0, 1];
    let for_all = [8, 1, 0, 2, 1, 2, 0, 0, 1, 0, 1];
    accepted(&exists, 3);
    accepted(&with_first_child(61, &exists), 64);
    refused(&with_first_child(62, &exists), 4, 124 + 3);
    refused(&with_first_child(63, &exists), 4, 126);
    // A for-all directly under an all-of costs 1.
    accepted(&with_first_child(62, &for_all), 64);
    refused(&with_first_child(63, &for_all), 4, 126 + 3);
    refused(&with_first_child(64, &for_all), 4, 128);
}

#[test]
fn question_4_costs() {
    let restriction = [2, 1, 2, 0, 0, 1, 0];
    let quantifier = |tag: i32, body: &[i32]| [&[tag, 1, 0], &restriction[..], body].concat();
    let join = |tag: i32, child: &[i32]| [&[tag, 2], child, &[1]].concat();
    // Under the root, a body and the joins.
    accepted(&quantifier(8, &[1]), 3);
    accepted(&quantifier(9, &[1]), 3);
    accepted(&join(6, &quantifier(8, &[1])), 3);
    accepted(&join(7, &quantifier(8, &[1])), 4);
    accepted(&join(6, &quantifier(9, &[1])), 4);
    accepted(&join(7, &quantifier(9, &[1])), 3);
    for outer in [8, 9] {
        for inner in [8, 9] {
            let second = [&[inner, 1, 0], &[2, 1, 2, 0, 0, 1, 1][..], &[1]].concat();
            accepted(&quantifier(outer, &second), 5);
            accepted(&quantifier(outer, &join(6, &second)), if inner == 8 { 5 } else { 6 });
            accepted(&quantifier(outer, &join(7, &second)), if inner == 9 { 5 } else { 6 });
        }
    }
    // The greatest level may lie in a restriction; "some" costs 1.
    let some = [8, 1, 0, 10, 6, 2, 2, 1, 2, 1, 0, 1, 1, 1, 1];
    accepted(&some, 5);
    // Chains of alternating quantifiers: 2 each.
    let chain = |count: usize| {
        let mut words = Vec::new();
        for number in 0..count as i32 {
            words.extend([8 + number % 2, 1, 0, 2, 1, 2, 0, 0, 1, number]);
        }
        words.push(1);
        words
    };
    accepted(&chain(16), 33);
    refused(&chain(17), 6, 160);
}

#[test]
fn questions_at_one_node_come_in_order() {
    // At level 65: a missing node, and one with its own words cut off, are refused by 3.
    let before = deep(63, &[6, 2]);
    let place = before.len();
    refused(&before, 3, place);
    for cut_off in [&[6][..], &[2, 0, 3, 0], &[4, 0, 0], &[8], &[9, 1], &[8, 4, 1, 0]] {
        refused(&[&before[..], cut_off].concat(), 3, place);
    }
    let at_65 = |node: &[i32]| [&before[..], node, &[1]].concat();
    for malformed in [
        &[11][..],
        &[10],
        &[6, 1],
        &[2, 0, 7, 0],
        &[4, 0, 2, 0, 0, 0],
        &[8, 5, 0],
    ] {
        refused(&at_65(malformed), 3, place);
    }
    for other in [&[1][..], &[2, -1, 1, 1, -1], &[6, 2], &[8, 1, 0, 77]] {
        refused(&at_65(other), 4, place);
    }
    // Predicate before variable.
    refused(&[2, 3, 1, 1, 0], 5, 0);
    refused(&[2, 0, 1, 1, 0], 5, 0);
    refused(&[2, 2, 1, 1, 0], 6, 0);
    // The first node with a "no" decides.
    refused(&[6, 2, 2, 2, 1, 1, 0, 77], 6, 2);
    refused(&[6, 2, 2, 3, 1, 0, 0, 4, 0, 1, 0, 0, 0], 5, 2);
    refused(&[6, 2, 4, 0, 1, 0, 0, 0, 2, 3, 1, 0, 0], 6, 2);
    refused(&[6, 3, 2, 2, 1, 1, 0], 6, 2);
    refused(&[4, 0, 1, 0, 0, 0, 99], 6, 0);
    // The mode rule comes after the whole policy.
    let unbound = [8, 1, 0, 1, 1];
    refused(&unbound, 7, 0);
    refused(&[&unbound[..], &[1]].concat(), 3, 5);
    refused(&[&[6, 2], &unbound[..], &[77]].concat(), 3, 7);
    refused(&[&[6, 2], &unbound[..], &[2, 9, 1, 0, 0]].concat(), 5, 7);
    refused(&[&[6, 2], &unbound[..], &[5, 0, 0, 0, 1, 0]].concat(), 6, 7);
    refused(&[&[6, 2], &unbound[..], &[1]].concat(), 7, 2);
}

#[test]
fn question_5() {
    for predicate in [-1, 3, i32::MIN, i32::MAX, 256] {
        refused(&[2, predicate, 2, 0, 0, 0, 0], 5, 0);
        refused(&[8, 1, 0, 3, predicate, 2, 0, 0, 0, 0, 1], 5, 3);
    }
    let arities = [3, 2, 1];
    for (predicate, arity) in arities.into_iter().enumerate() {
        for n in 1..=6 {
            let mut atom = vec![3, predicate as i32, n];
            atom.extend([0, i32::MIN].repeat(n as usize));
            if n == arity {
                accepted(&atom, 1);
            } else {
                refused(&atom, 5, 0);
            }
        }
    }
    let last = [[1, 0, 0].repeat(255), vec![6, 63, 1]].concat();
    let atom = [&[2, 255, 6], &[0, 4].repeat(6)[..]].concat();
    assert_eq!(check_policy(&last, &atom), Answer::accepted(1));
}

#[test]
fn question_6_variables() {
    for variable in [-1, 0, 15, 16, i32::MIN, i32::MAX] {
        refused(&[2, 1, 2, 0, 0, 1, variable], 6, 0);
        refused(&[3, 1, 2, 1, variable, 0, 0], 6, 0);
        refused(&[4, 0, 1, variable, 0, 0], 6, 0);
        refused(&[5, 0, 0, 0, 1, variable], 6, 0);
    }
    // Two variables are in scope in the restriction and in the body, and none behind.
    let exists = |restriction: i32, body: i32| {
        [
            9,
            2,
            0,
            6,
            2,
            2,
            1,
            2,
            1,
            0,
            1,
            1,
            4,
            0,
            1,
            restriction,
            0,
            0,
            4,
            0,
            0,
            0,
            1,
            body,
        ]
    };
    accepted(&exists(0, 1), 4);
    accepted(&exists(1, 0), 4);
    refused(&exists(2, 0), 6, 12);
    refused(&exists(-1, 0), 6, 12);
    refused(&exists(0, 2), 6, 18);
    refused(&exists(0, i32::MIN), 6, 18);
    refused(&[&[7, 2], &exists(0, 0)[..], &[4, 0, 1, 0, 0, 0]].concat(), 6, 26);
}

#[test]
fn question_6_some() {
    // For all x with: some y with consent(x, y). The body knows x only.
    let policy = |body: i32| [8, 1, 0, 10, 2, 1, 2, 1, 0, 1, 1, 4, 0, 1, body, 0, 0];
    accepted(&policy(0), 4);
    refused(&policy(1), 6, 11);
    // The number is free again behind "some": two of them share it.
    let twice = [
        8, 1, 0, 6, 3, 10, 2, 1, 2, 1, 0, 1, 1, 10, 2, 1, 2, 1, 1, 1, 0, 4, 0, 1, 0, 0, 0, 1,
    ];
    accepted(&twice, 5);
    let mut behind = twice;
    behind[24] = 1;
    refused(&behind, 6, 21);
}

#[test]
fn question_6_sixteen() {
    // Quantifiers of 4 variables each, bound by consent two by two.
    let four = |first: i32| {
        let x = |number: i32| first + number;
        [8, 4, 0, 6, 2, 2, 1, 2, 1, x(0), 1, x(1), 2, 1, 2, 1, x(2), 1, x(3)]
    };
    let sixteen = [four(0), four(4), four(8), four(12)].concat();
    accepted(&[&sixteen[..], &[4, 0, 1, 0, 1, 15]].concat(), 10);
    refused(&[&sixteen[..], &[4, 0, 1, 0, 1, 16]].concat(), 6, 76);
    refused(&[&sixteen[..], &[8, 1, 0, 1, 1]].concat(), 6, 76);
    // A bad count is found before.
    refused(&[&sixteen[..], &[8, 5, 0, 1, 1]].concat(), 3, 76);
    let twelve = [four(0), four(4), four(8)].concat();
    refused(
        &[&twelve[..], &[6, 2, 1], &four(12)[..], &[8, 1, 0, 1, 1]].concat(),
        6,
        57 + 3 + 19,
    );
    let three = |some: &[i32]| {
        let restriction = [&[6, 3, 2, 1, 2, 1, 12, 1, 13, 2, 1, 2, 1, 14, 1, 14], some].concat();
        [&twelve[..], &[9, 3, 1, 0, 0, 0], &restriction, &[1]].concat()
    };
    // "Some" counts: 15 in scope, then 16, then 17.
    accepted(&three(&[10, 2, 1, 2, 1, 15, 1, 0]), 11);
    refused(&three(&[10, 10, 2, 1, 2, 1, 15, 1, 16]), 6, 57 + 6 + 16 + 1);
}
