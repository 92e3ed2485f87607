//! Long lists: more tuples than are compared in pairs, up to and beyond what the library's table of tuples holds, and
//! more rows than fit by their first argument.

use std::collections::BTreeSet;

use inputs::{Case, Random};
use reference::PLACE;

use crate::comparison::Comparison;

/// sent(sender, receiver) and seen(person), open; known(person), complete.
const TABLE: [i32; 9] = [2, 0, 0, 1, 0, 0, 1, 0, 1];

/// The most tuples, listed and excluded, that the library finds by key.
const TABLED: usize = 8_192;

/// So many different rows of sent, most of them true, with numbers out of so many.
fn sendings(random: &mut Random, rows: usize, numbers: usize) -> Vec<i32> {
    let spread = random.pick(&[1, 70_001, -524_288]);
    let mut pairs = BTreeSet::new();
    while pairs.len() < rows {
        pairs.insert((random.below(numbers) as i32, random.below(numbers) as i32));
    }
    let mut pairs: Vec<(i32, i32)> = pairs.into_iter().collect();
    random.shuffle(&mut pairs);
    let mut log = Vec::new();
    for (sender, receiver) in pairs {
        let truth = i32::from(!random.once_in(10));
        log.extend([0, truth, sender.wrapping_mul(spread), receiver, 0, 0, 0, 0]);
    }
    log
}

/// A restriction that lists so many times over, as an any-of.
fn listed(times: usize, atom: &[i32]) -> Vec<i32> {
    match times {
        1 => atom.to_vec(),
        _ => [&[7, times as i32], &atom.repeat(times)[..]].concat(),
    }
}

/// Compares a reduction with just enough room, with a place less and with a word less.
fn check(comparison: &mut Comparison, policy: Vec<i32>, log: Vec<i32>) {
    let table = TABLE.to_vec();
    let places = reference::places(&table, &policy, &log).expect("a good case");
    let residual = reference::residual(&table, &policy, &log, PLACE * places, usize::MAX).expect("a good case");
    let case = Case { table, policy, log };
    comparison.reduce(&case, PLACE * places, residual.len());
    comparison.reduce(&case, PLACE * (places - 1), residual.len());
    comparison.reduce(&case, PLACE * places, residual.len() - 1);
}

/// One variable, whose numbers are listed many times, or two; excluded tuples of the log and others.
#[test]
fn repeated_and_excluded_tuples() {
    let mut comparison = Comparison::new(0xB007);
    for round in 0..300 {
        let random = &mut comparison.random;
        let rows = random.pick(&[20, 31, 33, 40, 100, 300]);
        let numbers = random.pick(&[25, 60, 3_000]);
        let log = sendings(random, rows, numbers);
        let variables = 1 + round % 2;
        let excluded = random.below(60);
        let mut policy = vec![8, variables as i32, excluded as i32];
        for _ in 0..excluded {
            let row = 8 * random.below(rows);
            let shift = i32::from(random.once_in(3));
            policy.extend(log[row + 2..row + 2 + variables].iter().map(|number| number + shift));
        }
        let atom: &[i32] = match variables {
            1 => &[10, 2, 0, 2, 1, 0, 1, 1],
            _ => &[2, 0, 2, 1, 0, 1, 1],
        };
        policy.extend(listed(random.between(1, 3), atom));
        policy.extend([2, 1, 1, 1, 0]);
        check(&mut comparison, policy, log);
    }
    comparison.has_seen(&[0, 11, 12], 300);
}

/// As many tuples as the table holds, and one more.
#[test]
fn as_many_tuples_as_are_found_by_key() {
    let mut comparison = Comparison::new(0xB008);
    for (rows, times, excluded) in [(4_096, 2, 0), (4_096, 2, 1), (2_731, 3, 0), (4_096, 1, TABLED - 4_096)] {
        let random = &mut comparison.random;
        let mut log = sendings(random, rows, 3_000);
        log.chunks_mut(8).for_each(|row| row[1] = 1);
        let mut policy = vec![8, 2, excluded as i32];
        for number in 0..excluded as i32 {
            policy.extend([number, -1]);
        }
        policy.extend(listed(times, &[2, 0, 2, 1, 0, 1, 1]));
        policy.extend([2, 1, 1, 1, 0]);
        check(&mut comparison, policy, log);
    }
    comparison.has_seen(&[0, 11, 12], 4);
}

/// Quantifiers in each other: the first term of the inner restriction is a constant, bound, free, or bound by the atom
/// itself.
#[test]
fn rows_by_their_first_argument() {
    let mut comparison = Comparison::new(0xB009);
    let inner: [&[i32]; 5] = [
        &[2, 0, 2, 1, 0, 1, 2],
        &[2, 0, 2, 1, 1, 1, 2],
        &[2, 0, 2, 0, 3, 1, 2],
        &[2, 0, 2, 1, 2, 1, 0],
        &[2, 0, 2, 1, 2, 1, 2],
    ];
    for _ in 0..300 {
        let random = &mut comparison.random;
        let (rows, numbers) = random.pick(&[(20, 6), (40, 8), (60, 30)]);
        let log = sendings(random, rows, numbers);
        let inner = listed(random.between(1, 2), random.pick(&inner));
        let quantifiers: [i32; 2] = [random.pick(&[8, 9]), random.pick(&[8, 9])];
        let policy = [
            &[quantifiers[0], 2, 0, 2, 0, 2, 1, 0, 1, 1, quantifiers[1], 1, 0],
            &inner[..],
            &[7, 2, 2, 1, 1, 1, 2, 3, 2, 1, 1, 0],
        ]
        .concat();
        check(&mut comparison, policy, log);
    }
    comparison.has_seen(&[0, 11, 12], 300);
}
