//! Readings that have to be caught: what an easy mistake would get wrong.

use reference::{check_policy, reduce, Answer};

/// link (two arguments, open), known (one argument, complete), seen (one argument, open).
const TABLE: [i32; 9] = [2, 0, 0, 1, 0, 1, 1, 0, 0];

/// The residual, with more than enough scratch and buffer.
fn residual(policy: &[i32], log: &[i32]) -> Vec<i32> {
    let (mut scratch, mut buffer) = (vec![0; 17 * 100], vec![0; 1000]);
    let answer = reduce(&TABLE, policy, log, &mut scratch, &mut buffer);
    assert_eq!(answer.number, 0, "{answer:?}");
    buffer.truncate(answer.count);
    buffer
}

/// The number of places needed: so many words of scratch do, one less does not.
fn places(policy: &[i32], log: &[i32]) -> usize {
    let places = reference::places(&TABLE, policy, log).unwrap();
    let answer = |words: usize| reduce(&TABLE, policy, log, &mut vec![0; words], &mut [0; 1000]);
    assert_eq!(answer(17 * places).number, 0);
    if places > 0 {
        assert_eq!(answer(17 * places - 1), Answer::refused(11, 0));
    }
    places
}

/// A row of the log.
fn row(predicate: i32, truth: i32, arguments: &[i32]) -> Vec<i32> {
    let mut row = vec![predicate, truth];
    row.extend(arguments);
    row.resize(8, 0);
    row
}

#[test]
fn one_variable_twice_needs_equal_arguments() {
    // For all x with link(x, x): false.
    let policy = [8, 1, 0, 2, 0, 2, 1, 0, 1, 0, 0];
    assert_eq!(residual(&policy, &row(0, 1, &[1, 2])), policy);
    assert_eq!(residual(&policy, &row(0, 1, &[2, 2])), [0]);
    // The same with the variable bound by an earlier atom, or by an outer quantifier.
    let policy = [
        8, 1, 0, 6, 2, 2, 2, 1, 1, 0, 2, 0, 2, 1, 0, 0, 4, 9, 1, 0, 2, 0, 2, 1, 0, 1, 1, 0,
    ];
    let log = [row(0, 1, &[1, 4]), row(2, 1, &[3])].concat();
    assert_eq!(residual(&policy, &log), policy);
}

#[test]
fn an_open_for_all_stays_when_its_instances_are_true() {
    let policy = [8, 1, 0, 2, 2, 1, 1, 0, 4, 0, 1, 0, 0, 10];
    let log = row(2, 1, &[5]);
    assert_eq!(residual(&policy, &log), [8, 1, 1, 5, 2, 2, 1, 1, 0, 4, 0, 1, 0, 0, 10]);
    // With a complete predicate it goes.
    let policy = [8, 1, 0, 2, 1, 1, 1, 0, 4, 0, 1, 0, 0, 10];
    let log = row(1, 1, &[5]);
    assert_eq!(residual(&policy, &log), [1]);
}

#[test]
fn one_open_atom_keeps_the_for_all() {
    // known(x) and not seen(x): the dual atom counts too.
    let policy = [8, 1, 0, 6, 2, 2, 1, 1, 1, 0, 3, 2, 1, 1, 0, 0];
    assert_eq!(residual(&policy, &[]), policy);
    // known(x) and x ≤ 3: tags 4 and 5 don't count, nor do plain nodes.
    let policy = [8, 1, 0, 6, 3, 2, 1, 1, 1, 0, 4, 0, 1, 0, 0, 3, 1, 0];
    assert_eq!(residual(&policy, &[]), [1]);
    // An open atom deep inside counts, though it makes no difference to the truth.
    let policy = [8, 1, 0, 6, 2, 2, 1, 1, 1, 0, 6, 2, 0, 10, 2, 2, 1, 1, 1, 0];
    assert_eq!(residual(&policy, &[]), policy);
}

#[test]
fn sums_never_wrap() {
    let most = i32::MAX;
    let least = i32::MIN;
    assert_eq!(residual(&[4, most, 0, most, 0, -1], &[]), [0]);
    assert_eq!(residual(&[5, most, 0, most, 0, -1], &[]), [1]);
    assert_eq!(residual(&[4, least, 0, least, 0, least], &[]), [1]);
    assert_eq!(residual(&[5, least, 0, least, 0, 0], &[]), [0]);
    assert_eq!(residual(&[4, 1, 0, most, 0, most], &[]), [0]);
    assert_eq!(residual(&[4, 0, 0, most, 0, most], &[]), [1]);
    // In a restriction as well: for all x with seen(x) and x + max ≤ -1: false.
    let policy = [8, 1, 0, 6, 2, 2, 2, 1, 1, 0, 4, most, 1, 0, 0, -1, 0];
    assert_eq!(residual(&policy, &row(2, 1, &[most])), policy);
}

#[test]
fn an_excluded_tuple_is_not_worked_again() {
    let policy = [8, 1, 0, 2, 2, 1, 1, 0, 2, 0, 2, 1, 0, 0, 8];
    let log = [row(2, 1, &[5]), row(2, 1, &[6])].concat();
    let once = residual(&policy, &log[..8]);
    let body = |x| [2, 0, 2, 0, x, 0, 8];
    let rest = [2, 2, 1, 1, 0, 2, 0, 2, 1, 0, 0, 8];
    assert_eq!(once, [&[6, 2], &body(5)[..], &[8, 1, 1, 5], &rest].concat());
    assert_eq!(residual(&once, &log[..8]), once);
    let twice = residual(&once, &log);
    assert_eq!(
        twice,
        [&[6, 3], &body(5)[..], &body(6), &[8, 1, 2, 5, 6], &rest].concat()
    );
    // A tuple excluded twice is copied twice.
    let policy = [&[8, 1, 2, 5, 5], &rest[..]].concat();
    assert_eq!(residual(&policy, &log[..8]), policy);
}

#[test]
fn an_open_atom_is_not_false() {
    let atom = [2, 2, 1, 0, 5];
    assert_eq!(residual(&atom, &[]), atom);
    let dual = [3, 2, 1, 0, 5];
    assert_eq!(residual(&dual, &[]), dual);
    assert_eq!(residual(&atom, &row(2, 0, &[5])), [0]);
    assert_eq!(residual(&dual, &row(2, 0, &[5])), [1]);
    // In a restriction the dual of an open atom lists nothing: known(x) and not seen(x).
    let policy = [9, 1, 0, 6, 2, 2, 1, 1, 1, 0, 3, 2, 1, 1, 0, 1];
    assert_eq!(residual(&policy, &row(1, 1, &[5])), policy);
    let log = [row(1, 1, &[5]), row(2, 0, &[5])].concat();
    assert_eq!(residual(&policy, &log), [1]);
}

#[test]
fn a_part_that_vanishes_needs_no_room() {
    let atom = [2, 2, 1, 0, 5];
    let reduced = |policy: &[i32], room: usize| {
        let mut buffer = vec![7; room];
        (reduce(&TABLE, policy, &[], &mut [], &mut buffer), buffer)
    };
    let vanishing = [&[6, 3], &atom[..], &atom, &[0]].concat();
    assert_eq!(reduced(&vanishing, 1), (Answer::accepted(1), vec![0]));
    assert_eq!(reduced(&vanishing, 0), (Answer::refused(12, 0), vec![]));
    // The header of a join that goes up in another one takes no room: exactly 2 + 4 · 5 words.
    let pair = [&[6, 2], &atom[..], &atom].concat();
    let nested = [&[6, 2], &pair[..], &pair].concat();
    let flat = [&[6, 4], &atom[..], &atom, &atom, &atom].concat();
    assert_eq!(reduced(&nested, 22), (Answer::accepted(22), flat));
    assert_eq!(reduced(&nested, 21).0, Answer::refused(12, 0));
    // Nor does the header of a join with one child left.
    let single = [&[6, 2], &atom[..], &[1]].concat();
    assert_eq!(reduced(&single, 5), (Answer::accepted(5), atom.to_vec()));
    // A long part may vanish late, far above where it arose.
    let late = [&[7, 2, 6, 2], &nested[..], &[1, 1]].concat();
    assert_eq!(reduced(&late, 1), (Answer::accepted(1), vec![1]));
}

#[test]
fn instances_come_once_and_in_order() {
    // For all x with seen(x), or link(x, 8), or seen(x) again: link(x, 9).
    let policy = [
        8, 1, 1, 4, 7, 3, 2, 2, 1, 1, 0, 2, 0, 2, 1, 0, 0, 8, 2, 2, 1, 1, 0, 2, 0, 2, 1, 0, 0, 9,
    ];
    let log = [
        row(0, 1, &[3, 8]),
        row(2, 1, &[2]),
        row(2, 1, &[4]),
        row(2, 1, &[1]),
        row(0, 1, &[2, 8]),
        row(2, 0, &[0]),
    ]
    .concat();
    let residual = residual(&policy, &log);
    let body = |x| [2, 0, 2, 0, x, 0, 9];
    let front = [&[6, 4], &body(2)[..], &body(1), &body(3)].concat();
    let rest = [&[8, 1, 4, 4, 2, 1, 3], &policy[4..]].concat();
    assert_eq!(residual, [front, rest].concat());
    // The lists: 3 + 2 + 3 and their join, 8, and the empty environment.
    assert_eq!(places(&policy, &log), 17);
}

#[test]
fn environments_come_in_turn() {
    let log = [row(2, 1, &[2]), row(2, 1, &[1])].concat();
    let tuples = |first: i32, second: i32| {
        let restriction = [6, 2, 2, 2, 1, 1, first, 2, 2, 1, 1, second];
        residual(&[&[8, 2, 0], &restriction[..], &[1]].concat(), &log)[3..11].to_vec()
    };
    // Each environment with all rows, then the next environment.
    assert_eq!(tuples(0, 1), [2, 2, 2, 1, 1, 2, 1, 1]);
    assert_eq!(tuples(1, 0), [2, 2, 1, 2, 2, 1, 1, 1]);
}

#[test]
fn a_variable_bound_by_one_branch_has_to_fit() {
    // For all x, y with seen(x) or link(x, y), and link(9, y): the second branch has bound y, the first has not.
    let policy = [
        8, 2, 0, 6, 2, 7, 2, 2, 2, 1, 1, 0, 2, 0, 2, 1, 0, 1, 1, 2, 0, 2, 0, 9, 1, 1, 1,
    ];
    let log = [
        row(2, 1, &[1]),
        row(0, 1, &[9, 5]),
        row(0, 1, &[9, 6]),
        row(0, 1, &[2, 6]),
    ]
    .concat();
    let rest = residual(&policy, &log);
    assert_eq!(rest[..3], [8, 2, 5]);
    assert_eq!(rest[3..13], [1, 5, 1, 6, 9, 5, 9, 6, 2, 6]);
    // Lists: 1 + 3 in the branches, 4 for the any-of, 5 and 5 behind.
    assert_eq!(places(&policy, &log), 1 + 4 + 4 + 5 + 5);
}

#[test]
fn a_variable_of_some_is_free_again() {
    // For all x with: some y with link(x, y), and some z, of the same number, with link(z, x).
    let restriction = |x: [i32; 2], y: i32| {
        let first = [10, 2, 0, 2, x[0], x[1], 1, y];
        let second = [10, 2, 0, 2, 1, y, x[0], x[1]];
        [&[6, 2], &first[..], &second].concat()
    };
    let policy = [&[8, 1, 0], &restriction([1, 0], 1)[..], &[0]].concat();
    let log = [row(0, 1, &[1, 7]), row(0, 1, &[3, 1])].concat();
    assert_eq!(residual(&policy, &log), [0]);
    // The same below another quantifier, where the numbers fall: for all w with seen(w), for all x with the same.
    let inner = [&[8, 1, 0], &restriction([1, 1], 2)[..], &[0]].concat();
    let policy = [&[8, 1, 0, 2, 2, 1, 1, 0], &inner[..]].concat();
    let log = [log, row(2, 1, &[4])].concat();
    assert_eq!(residual(&policy, &log), [0]);
    // 1 + 1, and below 1 + (2 + 2) + (1 + 1) + 1.
    assert_eq!(places(&policy, &log), 2 + 8);
}

#[test]
fn a_missing_row_decides_for_a_complete_predicate() {
    // So a front part of a log may decide otherwise than the whole log, which then does not extend it.
    let policy = [3, 1, 1, 0, 2];
    assert_eq!(residual(&policy, &[]), [1]);
    assert_eq!(residual(&policy, &row(1, 1, &[2])), [0]);
}

#[test]
fn the_lists_of_inner_nodes_count() {
    let log = [row(2, 1, &[1]), row(2, 1, &[2]), row(0, 1, &[1, 7]), row(0, 1, &[1, 8])].concat();
    // seen(x): 1 + 2.
    assert_eq!(places(&[8, 1, 0, 2, 2, 1, 1, 0, 1], &log), 3);
    // All of seen(x), true: 1 + 2 + 2 + 2.
    assert_eq!(places(&[8, 1, 0, 6, 2, 2, 2, 1, 1, 0, 1, 1], &log), 7);
    // All of seen(x), false: 1 + 2 + 0 + 0.
    assert_eq!(places(&[8, 1, 0, 6, 2, 2, 2, 1, 1, 0, 0, 1], &log), 3);
    // Some y with link(x, y), a tuple twice: 1 + 2 + 2.
    let some = [8, 1, 0, 10, 2, 0, 2, 1, 0, 1, 1, 2, 2, 1, 1, 0];
    assert_eq!(places(&some, &log), 5);
    // The instance comes once all the same.
    assert_eq!(
        residual(&some, &log)[..],
        [8, 1, 1, 1, 10, 2, 0, 2, 1, 0, 1, 1, 2, 2, 1, 1, 0]
    );
    // All of some, seen(x): 1 + (2 + 2) + 2 + 2.
    let policy = [8, 1, 0, 6, 2, 10, 2, 0, 2, 1, 0, 1, 1, 2, 2, 1, 1, 0, 1];
    assert_eq!(places(&policy, &log), 9);
}

#[test]
fn the_need_has_no_early_stop() {
    let log = [row(2, 1, &[1]), row(2, 1, &[2]), row(0, 1, &[1, 7]), row(0, 1, &[2, 8])].concat();
    let quantifier = [8, 1, 0, 2, 2, 1, 1, 0, 1];
    // A plain false child ends the reduction, not the need.
    assert_eq!(places(&[&[6, 2, 0], &quantifier[..]].concat(), &log), 3);
    assert_eq!(places(&[&[7, 2, 1], &quantifier[..]].concat(), &log), 3);
    assert_eq!(residual(&[&[6, 2, 0], &quantifier[..]].concat(), &log), [0]);
    // For all x with seen(x): false, and for all y with link(2, y) and so on: the second instance needs most.
    let inner = [8, 1, 0, 2, 0, 2, 1, 0, 1, 1, 0];
    let policy = [&[8, 1, 0, 2, 2, 1, 1, 0, 6, 2, 0], &inner[..]].concat();
    assert_eq!(places(&policy, &log[..24]), 3 + 2);
    let policy = [
        &[8, 1, 0, 2, 2, 1, 1, 0, 6, 2, 0, 8, 1, 0, 6, 2, 4, 2, 0, 0, 1, 0],
        &[2, 2, 1, 1, 1, 0][..],
    ]
    .concat();
    // x = 1 lists 0 + 0 + 0 below, x = 2 lists 1 + 2 + 2.
    assert_eq!(places(&policy, &log), 3 + 1 + 5);
    // Scratch of the outer quantifier stays in use below.
    let two = [&[6, 2], &quantifier[..], &quantifier].concat();
    assert_eq!(places(&two, &log), 3);
}

#[test]
fn greater_variables_fall() {
    // For all x with seen(x), exists y with link(x, y): some z with link(y, z) was the restriction, y ≤ x the body.
    let policy = [
        8, 1, 0, 2, 2, 1, 1, 0, 9, 1, 1, 6, 6, 2, 2, 0, 2, 1, 0, 1, 1, 10, 2, 0, 2, 1, 1, 1, 2, 4, 0, 1, 1, 1, 0,
    ];
    let log = row(2, 1, &[5]);
    let instance = [
        9, 1, 1, 6, 6, 2, 2, 0, 2, 0, 5, 1, 0, 10, 2, 0, 2, 1, 0, 1, 1, 4, 0, 1, 0, 0, 5,
    ];
    let rest = [&[8, 1, 1, 5], &policy[3..]].concat();
    assert_eq!(residual(&policy, &log), [&[6, 2], &instance[..], &rest].concat());
}

#[test]
fn children_that_become_joins_are_replaced() {
    let atom = [2, 2, 1, 0, 5];
    let all_of = [&[6, 2], &atom[..], &atom].concat();
    let any_of = [&[7, 2], &atom[..], &atom].concat();
    // An any-of with one child left, an all-of, goes up in the all-of above.
    let policy = [&[6, 2, 7, 2, 0], &all_of[..], &any_of].concat();
    assert_eq!(residual(&policy, &[]), [&[6, 3], &atom[..], &atom, &any_of].concat());
    let policy = [&[7, 2, 6, 2, 1], &any_of[..], &all_of].concat();
    assert_eq!(residual(&policy, &[]), [&[7, 3], &atom[..], &atom, &all_of].concat());
    // No child left.
    assert_eq!(residual(&[6, 2, 1, 1], &[]), [1]);
    assert_eq!(residual(&[7, 2, 0, 0], &[]), [0]);
    // A for-all directly under an all-of gives its parts up.
    let for_all = [8, 1, 0, 2, 2, 1, 1, 0, 2, 0, 2, 1, 0, 0, 8];
    let policy = [&[6, 2], &atom[..], &for_all].concat();
    let log = row(2, 1, &[6]);
    let rest = [&[8, 1, 1, 6], &for_all[3..]].concat();
    assert_eq!(
        residual(&policy, &log),
        [&[6, 3], &atom[..], &[2, 0, 2, 0, 6, 0, 8], &rest].concat()
    );
    // An any-of above keeps the all-of that the for-all becomes.
    let policy = [&[7, 2], &atom[..], &for_all].concat();
    assert_eq!(
        residual(&policy, &log),
        [&[7, 2], &atom[..], &[6, 2, 2, 0, 2, 0, 6, 0, 8], &rest].concat()
    );
}

#[test]
fn a_residual_of_too_many_words_is_refused() {
    // 4,096 instances of a body of 257 words are more than 1,048,576 words, of one of 247 fewer.
    let log: Vec<i32> = (0..4096).flat_map(|x| row(2, 1, &[x])).collect();
    let mut buffer = vec![3; 1_100_000];
    let mut scratch = vec![3; 17 * 4097];
    let mut answer = |atoms: usize| {
        let mut policy = vec![8, 1, 0, 2, 2, 1, 1, 0, 7, atoms as i32];
        policy.extend([2, 2, 1, 0, -1].repeat(atoms));
        let answer = reduce(&TABLE, &policy, &log, &mut scratch, &mut buffer);
        assert!(buffer[answer.count..].iter().all(|word| *word == 0));
        answer
    };
    let words = |body: usize| 2 + 4096 * body + 3 + 4096 + 5 + body;
    assert_eq!(answer(49), Answer::accepted(words(247)));
    assert_eq!(answer(50), Answer::accepted(words(252)));
    assert_eq!(answer(51), Answer::refused(12, 0));
    assert!(words(252) <= 1_048_576 && words(257) > 1_048_576);
}

#[test]
fn the_last_question_comes_last() {
    // Each call asks of its table, policy and log before it looks at scratch and buffer.
    let forall = [8, 1, 0, 2, 2, 1, 1, 0, 1];
    let none = || Vec::<i32>::new();
    let answer = |table: &[i32], policy: &[i32], log: &[i32]| reduce(table, policy, log, &mut none(), &mut none());
    assert_eq!(answer(&[], &[], &[1]), Answer::refused(1, 0));
    assert_eq!(answer(&TABLE, &[], &[1]), Answer::refused(2, 0));
    assert_eq!(answer(&TABLE, &[8, 1, 0, 1, 1], &[1]), Answer::refused(7, 0));
    assert_eq!(answer(&TABLE, &forall, &[1]), Answer::refused(8, 0));
    assert_eq!(answer(&TABLE, &forall, &row(2, 2, &[])), Answer::refused(9, 0));
    let twice = row(2, 1, &[4]).repeat(2);
    assert_eq!(answer(&TABLE, &forall, &twice), Answer::refused(10, 1));
    assert_eq!(answer(&TABLE, &forall, &[]), Answer::refused(11, 0));
    assert_eq!(answer(&TABLE, &[1], &[]), Answer::refused(12, 0));
    assert_eq!(check_policy(&TABLE, &forall), Answer::accepted(3));
}
