//! Random predicate tables.

use crate::damage::{boundary_word, damage};
use crate::Random;

/// A good table of 1 to 8 predicates, rarely of up to 256.
pub fn good_table(random: &mut Random) -> Vec<i32> {
    let predicates = if random.once_in(50) {
        random.between(250, 256)
    } else {
        random.between(1, 8)
    };
    table(random, predicates, 6)
}

/// A good table of a few predicates with at most two arguments each.
pub fn small_table(random: &mut Random) -> Vec<i32> {
    let predicates = random.between(2, 4);
    table(random, predicates, 2)
}

/// A good table of so many predicates with at most so many arguments each.
pub(crate) fn table(random: &mut Random, predicates: usize, most: usize) -> Vec<i32> {
    let inputs_are_rare = random.once_in(2);
    let mut words = Vec::new();
    for _ in 0..predicates {
        let arity = random.between(1, most);
        let mask = random.below(1 << arity);
        let mask = if inputs_are_rare && !random.once_in(4) { 0 } else { mask };
        words.extend([arity as i32, mask as i32, random.below(2) as i32]);
    }
    words
}

/// A table that is likely to be bad: in one of its records, in its length, or anywhere.
pub fn damaged_table(random: &mut Random) -> Vec<i32> {
    let mut words = good_table(random);
    match random.below(4) {
        0 => {
            let place = random.below(words.len());
            words[place] = boundary_word(random);
        }
        1 => {
            let record = random.below(words.len() / 3);
            words[3 * record + 1] = 1 << words[3 * record];
        }
        2 => {
            let records = random.pick(&[0, 1, 255, 256, 257]);
            words = [2, 1, 0].repeat(records);
            if random.once_in(2) {
                damage(random, &mut words);
            }
        }
        _ => {
            for _ in 0..random.between(1, 3) {
                damage(random, &mut words);
            }
        }
    }
    words
}
