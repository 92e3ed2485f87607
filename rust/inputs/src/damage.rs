//! Damage: changes to words that are likely to hit a boundary.

use crate::Random;

/// Words at which something changes, somewhere in a table, a log or a policy.
const BOUNDARIES: [i32; 24] = [
    0,
    1,
    -1,
    2,
    3,
    4,
    5,
    6,
    7,
    8,
    9,
    10,
    11,
    15,
    16,
    17,
    63,
    64,
    255,
    256,
    i32::MAX,
    i32::MAX - 1,
    i32::MIN,
    i32::MIN + 1,
];

/// A word at a boundary.
pub fn boundary_word(random: &mut Random) -> i32 {
    random.pick(&BOUNDARIES)
}

/// Changes words in one way: replaces, moves, drops or adds some.
pub fn damage(random: &mut Random, words: &mut Vec<i32>) {
    if words.is_empty() {
        words.push(boundary_word(random));
        return;
    }
    let place = random.below(words.len());
    let other = random.below(words.len());
    match random.below(12) {
        0..=3 => words[place] = boundary_word(random),
        4 => words[place] = words[place].wrapping_add(random.pick(&[1, -1])),
        5 => words[place] = random.number() as i32,
        6 => words[place] = words[other],
        7 => words.swap(place, other),
        8 => {
            words.remove(place);
        }
        9 => words.insert(place, boundary_word(random)),
        10 => words.truncate(place),
        _ => {
            for _ in 0..random.between(1, 3) {
                words.push(boundary_word(random));
            }
        }
    }
}

/// Words without any order, most of them small.
pub fn noise(random: &mut Random, most: usize) -> Vec<i32> {
    let length = random.below(most + 1);
    let small = random.pick(&[2, 3, 9, 11]);
    (0..length)
        .map(|_| {
            if random.once_in(10) {
                boundary_word(random)
            } else {
                random.below(small) as i32
            }
        })
        .collect()
}
