//! Readings that have to be caught: what an easy mistake would get wrong.

use vitrinehawk::{reduce, Refusal, Refused};

/// link (two arguments, open), known (one argument, complete), seen (one argument, open).
const TABLE: [i32; 9] = [2, 0, 0, 1, 0, 1, 1, 0, 0];

/// The outcome and the words, with a buffer of so many words.
fn reduced(policy: &[i32], log: &[i32], room: usize) -> (Result<usize, Refused>, Vec<i32>) {
    let (mut scratch, mut buffer) = (vec![-1; 17 * 100], vec![-1; room]);
    let outcome = reduce(&TABLE, policy, log, &mut scratch, &mut buffer);
    assert!(scratch.iter().all(|word| *word == 0));
    (outcome, buffer)
}

/// The residual, in a buffer that just fits it.
fn residual(policy: &[i32], log: &[i32]) -> Vec<i32> {
    let length = reduced(policy, log, 1_000).0.expect("accepted");
    let (outcome, buffer) = reduced(policy, log, length);
    assert_eq!(outcome, Ok(length));
    buffer
}

/// A row of the log.
fn row(predicate: i32, truth: i32, arguments: &[i32]) -> Vec<i32> {
    let mut row = vec![predicate, truth];
    row.extend(arguments);
    row.resize(8, 0);
    row
}

#[test]
fn one_variable_twice_matches_equal_arguments_only() {
    // For all x with link(x, x): false.
    let policy = [8, 1, 0, 2, 0, 2, 1, 0, 1, 0, 0];
    assert_eq!(residual(&policy, &row(0, 1, &[1, 2])), policy);
    assert_eq!(residual(&policy, &row(0, 1, &[2, 2])), [0]);
    // The same with the variable bound by an earlier atom.
    let policy = [8, 1, 0, 6, 2, 2, 2, 1, 1, 0, 2, 0, 2, 1, 0, 0, 4, 0];
    let log = |x| [row(0, 1, &[1, 4]), row(2, 1, &[x])].concat();
    assert_eq!(residual(&policy, &log(3)), policy);
    assert_eq!(residual(&policy, &log(1)), [0]);
}

#[test]
fn a_for_all_with_true_instances_stays_if_its_predicate_is_open() {
    let policy = |predicate| [8, 1, 0, 2, predicate, 1, 1, 0, 4, 0, 1, 0, 0, 10];
    let rest = [8, 1, 1, 5, 2, 2, 1, 1, 0, 4, 0, 1, 0, 0, 10];
    assert_eq!(residual(&policy(2), &row(2, 1, &[5])), rest);
    // With a complete predicate it goes.
    assert_eq!(residual(&policy(1), &row(1, 1, &[5])), [1]);
}

#[test]
fn sums_do_not_wrap() {
    let (most, least) = (i32::MAX, i32::MIN);
    assert_eq!(residual(&[4, most, 0, most, 0, -1], &[]), [0]);
    assert_eq!(residual(&[5, most, 0, most, 0, -1], &[]), [1]);
    assert_eq!(residual(&[4, least, 0, least, 0, 0], &[]), [1]);
    assert_eq!(residual(&[5, least, 0, least, 0, 0], &[]), [0]);
    // In a restriction as well: for all x with seen(x) and x + max ≤ -1: false.
    let policy = [8, 1, 0, 6, 2, 2, 2, 1, 1, 0, 4, most, 1, 0, 0, -1, 0];
    assert_eq!(residual(&policy, &row(2, 1, &[most])), policy);
    assert_eq!(residual(&policy, &row(2, 1, &[least])), [0]);
}

#[test]
fn an_excluded_tuple_is_not_worked_in_the_next_round() {
    // For all x with seen(x): link(x, 8).
    let rest = [2, 2, 1, 1, 0, 2, 0, 2, 1, 0, 0, 8];
    let policy = [&[8, 1, 0], &rest[..]].concat();
    let body = |x| [2, 0, 2, 0, x, 0, 8];
    let log = [row(2, 1, &[5]), row(2, 1, &[6])].concat();
    let once = residual(&policy, &log[..8]);
    assert_eq!(once, [&[6, 2], &body(5)[..], &[8, 1, 1, 5], &rest].concat());
    assert_eq!(residual(&once, &log[..8]), once);
    let twice = [&[6, 3], &body(5)[..], &body(6), &[8, 1, 2, 5, 6], &rest].concat();
    assert_eq!(residual(&once, &log), twice);
    assert_eq!(residual(&policy, &log), twice);
    assert_eq!(residual(&twice, &log), twice);
}

#[test]
fn an_open_atom_without_a_row_is_not_false() {
    for tag in [2, 3] {
        let atom = [tag, 2, 1, 0, 5];
        assert_eq!(residual(&atom, &[]), atom);
        assert_eq!(residual(&atom, &row(2, 0, &[5])), [tag - 2]);
        assert_eq!(residual(&atom, &row(2, 1, &[5])), [3 - tag]);
    }
    // In a restriction the dual of an open atom lists nothing: exists x with known(x) and not seen(x).
    let policy = [9, 1, 0, 6, 2, 2, 1, 1, 1, 0, 3, 2, 1, 1, 0, 1];
    assert_eq!(residual(&policy, &row(1, 1, &[5])), policy);
    let log = [row(1, 1, &[5]), row(2, 0, &[5])].concat();
    assert_eq!(residual(&policy, &log), [1]);
}

#[test]
fn a_part_that_vanishes_needs_no_room() {
    let no_room = |room| {
        let refusal = Refusal::Room;
        (Err(Refused { refusal, place: 0 }), vec![0; room])
    };
    let atom = [2, 2, 1, 0, 5];
    let vanishing = [&[6, 3], &atom[..], &atom, &[0]].concat();
    assert_eq!(reduced(&vanishing, &[], 1), (Ok(1), vec![0]));
    assert_eq!(reduced(&vanishing, &[], 0), no_room(0));
    // The header of a join that goes up in another one takes no room, nor does one with one child left.
    let pair = [&[6, 2], &atom[..], &atom].concat();
    let nested = [&[6, 2], &pair[..], &pair].concat();
    let flat = [&[6, 4], &atom[..], &atom, &atom, &atom].concat();
    assert_eq!(reduced(&nested, &[], 22), (Ok(22), flat));
    assert_eq!(reduced(&nested, &[], 21), no_room(21));
    let single = [&[6, 2], &atom[..], &[1]].concat();
    assert_eq!(reduced(&single, &[], 5), (Ok(5), atom.to_vec()));
    // A long part may vanish late, far above where it arose.
    let late = [&[7, 2, 6, 2], &nested[..], &[1, 1]].concat();
    assert_eq!(reduced(&late, &[], 1), (Ok(1), vec![1]));
    // So may instances: for all x with known(x): seen(5), or x ≤ 0.
    let forall = [8, 1, 0, 2, 1, 1, 1, 0, 7, 2, 2, 2, 1, 0, 5, 4, 0, 1, 0, 0, 0];
    let policy = [&[6, 2], &forall[..], &[2, 1, 1, 0, 9]].concat();
    let log: Vec<i32> = (1..=8).flat_map(|x| row(1, 1, &[x])).collect();
    assert_eq!(reduced(&policy, &log, 1), (Ok(1), vec![0]));
}
