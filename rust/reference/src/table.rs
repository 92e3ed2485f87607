//! The predicate table and question 1.

use crate::answer::{Question, Refused};

/// The words of one predicate.
const RECORD: usize = 3;

/// The greatest number of predicates.
const MOST_PREDICATES: usize = 256;

/// A good predicate.
#[derive(Clone, Debug, PartialEq, Eq)]
pub struct Predicate {
    /// The number of arguments, 1 to 6.
    pub arity: usize,
    /// For each argument, whether it is an input.
    pub inputs: Vec<bool>,
    /// Whether an atom without a row is false rather than open.
    pub complete: bool,
}

impl Predicate {
    /// Reads one record, if it is good.
    fn read(record: &[i32]) -> Option<Self> {
        let &[arity @ 1..=6, mask, complete @ 0..=1] = record else {
            return None;
        };
        if mask < 0 || mask >> arity != 0 {
            return None;
        }
        Some(Predicate {
            arity: arity as usize,
            inputs: (0..arity).map(|bit| mask >> bit & 1 == 1).collect(),
            complete: complete == 1,
        })
    }
}

/// Question 1: reads the predicates.
pub fn read_table(words: &[i32]) -> Result<Vec<Predicate>, Refused> {
    let predicates = words.len() / RECORD;
    if !words.len().is_multiple_of(RECORD) || !(1..=MOST_PREDICATES).contains(&predicates) {
        return Err(Question::Table.at(0));
    }
    words
        .chunks(RECORD)
        .enumerate()
        .map(|(number, record)| Predicate::read(record).ok_or(Question::Table.at(number)))
        .collect()
}
