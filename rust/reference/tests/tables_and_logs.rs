//! Boundary cases of questions 1 and 8 to 10: tables and logs.

use reference::{check_log, check_policy, Answer};

/// send (open), consent (complete), believes (its argument is an input, open).
const T: [i32; 9] = [3, 0, 0, 2, 0, 1, 1, 1, 0];

#[track_caller]
fn table(table: &[i32], answer: Answer) {
    assert_eq!(check_log(table, &[]), answer);
    let policy = if answer.number == 0 {
        Answer::accepted(1)
    } else {
        answer
    };
    assert_eq!(check_policy(table, &[1]), policy);
}

#[test]
fn question_1_lengths() {
    let records = |count: usize| [1, 0, 0].repeat(count);
    table(&[], Answer::refused(1, 0));
    table(&records(1), Answer::accepted(0));
    table(&records(256), Answer::accepted(0));
    table(&records(257), Answer::refused(1, 0));
    for cut in 1..9 {
        let good = cut % 3 == 0;
        let answer = if good {
            Answer::accepted(0)
        } else {
            Answer::refused(1, 0)
        };
        table(&T[..cut], answer);
    }
    // A bad length comes before a bad record.
    table(&[1, 0, 0, 9, 0, 0, 1], Answer::refused(1, 0));
}

#[test]
fn question_1_records() {
    for bad in [
        [0, 0, 0],
        [7, 0, 0],
        [-1, 0, 0],
        [1, 2, 0],
        [1, -1, 0],
        [6, 64, 0],
        [6, i32::MIN, 0],
        [5, 32, 1],
        [1, 0, 2],
        [1, 0, -1],
        [i32::MAX, 0, 0],
    ] {
        table(&bad, Answer::refused(1, 0));
        table(&[&T, &bad[..]].concat(), Answer::refused(1, 3));
        table(&[&bad, &T[..], &bad].concat(), Answer::refused(1, 0));
        table(&[&T[..3], &bad[..], &bad].concat(), Answer::refused(1, 1));
    }
    for arity in 1..=6 {
        table(&[arity, (1 << arity) - 1, 1], Answer::accepted(0));
        table(&[arity, 1 << arity, 1], Answer::refused(1, 0));
    }
    let last_bad = [[1, 0, 0].repeat(255), vec![1, 0, 5]].concat();
    table(&last_bad, Answer::refused(1, 255));
}

#[test]
fn question_8() {
    let rows = |count: i32| {
        (0..count)
            .flat_map(|x| [2, x % 2, x, 0, 0, 0, 0, 0])
            .collect::<Vec<_>>()
    };
    assert_eq!(check_log(&T, &rows(4096)), Answer::accepted(4096));
    assert_eq!(check_log(&T, &rows(4097)), Answer::refused(8, 0));
    for cut in 1..16 {
        let answer = if cut == 8 {
            Answer::accepted(1)
        } else {
            Answer::refused(8, 0)
        };
        assert_eq!(check_log(&T, &rows(2)[..cut]), answer);
    }
    // Question 1 comes before, the rows behind.
    assert_eq!(check_log(&[], &[1]), Answer::refused(1, 0));
    assert_eq!(check_log(&T, &[99; 9]), Answer::refused(8, 0));
}

#[test]
fn question_9() {
    let good = [1, 1, i32::MIN, i32::MAX, 0, 0, 0, 0];
    assert_eq!(check_log(&T, &good), Answer::accepted(1));
    for (word, value) in [
        (0, -1),
        (0, 3),
        (0, i32::MIN),
        (1, -1),
        (1, 2),
        (1, i32::MAX),
        (4, 1),
        (5, -1),
        (6, i32::MIN),
        (7, 1),
    ] {
        let mut bad = good;
        bad[word] = value;
        assert_eq!(check_log(&T, &bad), Answer::refused(9, 0));
        let mut log = good.to_vec();
        log.extend([2, 0, 5, 0, 0, 0, 0, 0]);
        log.extend(bad);
        log.extend(bad);
        assert_eq!(check_log(&T, &log), Answer::refused(9, 2));
    }
    // All six arguments in use.
    let table = [6, 0, 0];
    assert_eq!(check_log(&table, &[0, 0, 1, 2, 3, 4, 5, 6]), Answer::accepted(1));
}

#[test]
fn question_10() {
    let a = [2, 1, 5, 0, 0, 0, 0, 0];
    let not_a = [2, 0, 5, 0, 0, 0, 0, 0];
    let b = [2, 1, 6, 0, 0, 0, 0, 0];
    // The same atom with either truth; the later row is the place.
    assert_eq!(check_log(&T, &[a, b].concat()), Answer::accepted(2));
    assert_eq!(check_log(&T, &[a, a].concat()), Answer::refused(10, 1));
    assert_eq!(check_log(&T, &[a, b, not_a, b].concat()), Answer::refused(10, 2));
    // The same arguments of another predicate, and other orders of arguments.
    let c = [1, 1, 5, 0, 0, 0, 0, 0];
    let d = [1, 1, 0, 5, 0, 0, 0, 0];
    assert_eq!(check_log(&T, &[a, c, d].concat()), Answer::accepted(3));
    // 9 and 10 stand at each row in turn.
    let bad = [2, 2, 5, 0, 0, 0, 0, 0];
    assert_eq!(check_log(&T, &[a, a, bad].concat()), Answer::refused(10, 1));
    assert_eq!(check_log(&T, &[a, bad, a].concat()), Answer::refused(9, 1));
    // A bad row that repeats an atom is refused as a bad row.
    assert_eq!(check_log(&T, &[a, bad].concat()), Answer::refused(9, 1));
}
