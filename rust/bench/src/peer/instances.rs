//! The instances of a quantifier: the tuples of a list that are not excluded, each once.

use super::listing::{List, Place};

/// Up to so many comparisons of tuples no hash table is made.
const FEW: usize = 64;

/// Finds the instances. Its hash table is kept for the next quantifier.
#[derive(Default)]
pub struct Chooser {
    /// Open addressing: a slot is 0 if it is free, else the number of a tuple and 1.
    slots: Vec<u32>,
}

impl Chooser {
    /// Moves the tuples of the variables from `scope` on that are instances to the front of a list and returns how many
    /// there are. The excluded tuples stand one behind the other.
    pub fn choose(&mut self, places: &mut [Place], list: List, scope: usize, n: usize, excluded: &[i32]) -> usize {
        match n {
            1 => self.choose_tuples::<1>(places, list, scope, excluded),
            2 => self.choose_tuples::<2>(places, list, scope, excluded),
            3 => self.choose_tuples::<3>(places, list, scope, excluded),
            _ => self.choose_tuples::<4>(places, list, scope, excluded),
        }
    }

    fn choose_tuples<const N: usize>(
        &mut self,
        places: &mut [Place],
        list: List,
        scope: usize,
        excluded: &[i32],
    ) -> usize {
        let places = &mut places[list.from..list.to];
        let excluded = excluded.as_chunks::<N>().0;
        let tuples = excluded.len() + places.len();
        let hashed = places.len() * tuples > FEW;
        if hashed {
            self.slots.clear();
            self.slots.resize((2 * tuples).next_power_of_two(), 0);
            for number in 0..excluded.len() {
                self.add(excluded, places, scope, number, excluded[number]);
            }
        }
        let mut found = 0;
        for source in 0..places.len() {
            let tuple = tuple(&places[source], scope);
            let new = if hashed {
                self.add(excluded, places, scope, excluded.len() + found, tuple)
            } else {
                let mut earlier = places[..found].iter().map(|place| self::tuple(place, scope));
                !excluded.contains(&tuple) && earlier.all(|other| other != tuple)
            };
            if new {
                places[found][scope..scope + N].copy_from_slice(&tuple);
                found += 1;
            }
        }
        found
    }

    /// Puts a tuple into the table under a number, unless an equal one is there. The numbers go through the excluded
    /// tuples and then through the instances.
    fn add<const N: usize>(
        &mut self,
        excluded: &[[i32; N]],
        places: &[Place],
        scope: usize,
        number: usize,
        new: [i32; N],
    ) -> bool {
        let mask = self.slots.len() - 1;
        let mut slot = hash(new) >> 32 & mask;
        while self.slots[slot] != 0 {
            let other = self.slots[slot] as usize - 1;
            let other = match other.checked_sub(excluded.len()) {
                None => excluded[other],
                Some(instance) => tuple(&places[instance], scope),
            };
            if other == new {
                return false;
            }
            slot = (slot + 1) & mask;
        }
        self.slots[slot] = number as u32 + 1;
        true
    }
}

/// The numbers of some variables.
fn tuple<const N: usize>(place: &Place, scope: usize) -> [i32; N] {
    std::array::from_fn(|i| place[scope + i])
}

/// A number whose upper half depends on the whole tuple.
fn hash<const N: usize>(tuple: [i32; N]) -> usize {
    let mixed = tuple.iter().fold(0_u64, |hash, word| {
        (hash.rotate_left(29) ^ u64::from(*word as u32)).wrapping_mul(0x9E37_79B9_7F4A_7C15)
    });
    mixed as usize
}
