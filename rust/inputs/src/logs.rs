//! Random logs.

use std::collections::BTreeSet;

use crate::damage::{boundary_word, damage};
use crate::Random;

const ROW: usize = 8;

/// A good log with at most so many rows. Its arguments are 0 to `values` - 1.
pub fn good_log(random: &mut Random, table: &[i32], most_rows: usize, values: usize) -> Vec<i32> {
    let rows = random.below(most_rows + 1);
    log_of(random, rows, |random| {
        atom(random, table, |random| random.below(values) as i32)
    })
}

/// The same, with most rows of the first half of the predicates.
pub(crate) fn split_log(random: &mut Random, table: &[i32], most_rows: usize, values: usize) -> Vec<i32> {
    let first_half = &table[..table.len().min(3 * (table.len() / 6 + 1))];
    let rows = random.between(most_rows / 2, most_rows);
    log_of(random, rows, |random| {
        let table = if random.once_in(8) { table } else { first_half };
        atom(random, table, |random| random.below(values) as i32)
    })
}

/// A good log with at most so many rows. Its arguments have all numbers of digits, and are often where this number or
/// the range ends.
pub fn decimal_log(random: &mut Random, table: &[i32], most_rows: usize) -> Vec<i32> {
    let rows = random.below(most_rows + 1);
    log_of(random, rows, |random| atom(random, table, decimal))
}

/// An argument of a decimal log.
fn decimal(random: &mut Random) -> i32 {
    let sign = random.pick(&[1, -1]);
    match random.below(4) {
        0 => random.pick(&[0, -1, i32::MAX, i32::MAX - 1, i32::MIN, i32::MIN + 1]),
        1 => sign * (10_i32.pow(random.below(10) as u32) - random.below(2) as i32),
        _ => random.number() as i32 >> random.below(32),
    }
}

/// Rows of different atoms, from so many that may repeat each other.
fn log_of(random: &mut Random, rows: usize, atom: impl Fn(&mut Random) -> [i32; 7]) -> Vec<i32> {
    let mut seen = BTreeSet::new();
    let mut words = Vec::new();
    for _ in 0..rows {
        let atom = atom(random);
        if seen.insert(atom) {
            words.extend(row(random, atom));
        }
    }
    words
}

/// An atom of any predicate, as its predicate and six words for its arguments.
fn atom(random: &mut Random, table: &[i32], argument: impl Fn(&mut Random) -> i32) -> [i32; 7] {
    let predicate = random.below(table.len() / 3);
    let mut atom = [0; 7];
    atom[0] = predicate as i32;
    for word in &mut atom[1..=table[3 * predicate] as usize] {
        *word = argument(random);
    }
    atom
}

/// The row of an atom, true more often than not.
fn row(random: &mut Random, [predicate, a, b, c, d, e, f]: [i32; 7]) -> [i32; ROW] {
    [predicate, i32::from(!random.once_in(4)), a, b, c, d, e, f]
}

/// A log that is likely to be bad: a row repeated, a bad word in a row, or words changed anywhere.
pub fn damaged_log(random: &mut Random, table: &[i32], most_rows: usize) -> Vec<i32> {
    let mut words = good_log(random, table, most_rows, 5);
    let rows = words.len() / ROW;
    for _ in 0..random.between(1, 2) {
        if rows == 0 || random.once_in(4) {
            damage(random, &mut words);
            continue;
        }
        let row = ROW * random.below(rows);
        let Some(copy) = words.get(row..row + ROW).map(<[i32]>::to_vec) else {
            continue;
        };
        match random.below(4) {
            0 => {
                // The same atom again, somewhere behind, with either truth.
                let mut copy = copy;
                copy[1] = random.below(2) as i32;
                let behind = words.len() / ROW - row / ROW;
                let place = row + ROW * random.between(1, behind);
                words.splice(place..place, copy);
            }
            1 => {
                let predicates = (table.len() / 3) as i32;
                words[row] = random.pick(&[-1, predicates, i32::MIN, i32::MAX]);
            }
            2 => words[row + 1] = boundary_word(random),
            _ => words[row + random.between(3, 7)] = boundary_word(random),
        }
    }
    words
}

/// The table that [`full_log`] belongs to.
pub const FULL_LOG_TABLE: [i32; 6] = [3, 0, 0, 6, 0, 1];

/// So many rows with different atoms that differ late or early in their arguments.
pub fn full_log(rows: usize) -> Vec<i32> {
    let row = |number: i32| match number % 3 {
        0 => [0, 1, number, 7, 7, 0, 0, 0],
        1 => [1, 0, 7, 7, 7, 7, 7, number],
        _ => [0, number / 3 % 2, 7, 7, number, 0, 0, 0],
    };
    (0..rows as i32).flat_map(row).collect()
}

/// So many rows with different atoms, of the predicates in turn. The arguments are consecutive numbers; those of the
/// predicate's next row are greater by one.
pub fn counting_log(table: &[i32], rows: usize) -> Vec<i32> {
    let predicates = table.len() / 3;
    let row = |number: usize| {
        let (round, predicate) = (number / predicates, number % predicates);
        let mut row = [0; ROW];
        row[0] = predicate as i32;
        row[1] = i32::from(round % 4 != 0);
        for (argument, value) in row[2..].iter_mut().take(table[3 * predicate] as usize).zip(round..) {
            *argument = value as i32;
        }
        row
    };
    (0..rows).flat_map(row).collect()
}

/// So many rows with different atoms. Their arguments are any words.
pub fn random_log(random: &mut Random, table: &[i32], rows: usize) -> Vec<i32> {
    let mut seen = BTreeSet::new();
    let mut words = Vec::new();
    while seen.len() < rows {
        let atom = atom(random, table, |random| random.number() as i32);
        if seen.insert(atom) {
            words.extend(row(random, atom));
        }
    }
    words
}

/// A log that extends another by at most so many rows: for open atoms, and false ones for complete predicates. Their
/// arguments are values of the universe. The rows, old and new, stand in any order.
pub fn extension(random: &mut Random, table: &[i32], log: &[i32], universe: &[i32], most_rows: usize) -> Vec<i32> {
    let mut rows: Vec<[i32; ROW]> = log
        .chunks(ROW)
        .map(|row| row.try_into().expect("a whole row"))
        .collect();
    for _ in 0..random.below(most_rows + 1) {
        let [predicate, a, b, c, d, e, f] = atom(random, table, |random| random.pick(universe));
        let complete = table[3 * predicate as usize + 2] == 1;
        let truth = if complete { 0 } else { random.below(2) as i32 };
        let row = [predicate, truth, a, b, c, d, e, f];
        let known = rows
            .iter()
            .any(|other| other[0] == row[0] && other[2..] == row[2..]);
        if !known {
            rows.push(row);
        }
    }
    random.shuffle(&mut rows);
    rows.concat()
}
