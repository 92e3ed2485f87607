//! The log, questions 8 to 10, and what a log knows of an atom.

use std::collections::HashMap;

use crate::answer::{Question, Refused};
use crate::table::Predicate;

/// The words of one row.
pub const ROW: usize = 8;

/// The greatest number of rows.
const MOST_ROWS: usize = 4096;

/// The row's first two words, before its arguments.
pub const BEFORE_ARGUMENTS: usize = 2;

/// A predicate and its arguments, as many as its arity.
#[derive(Clone, Debug, PartialEq, Eq, Hash)]
pub struct GroundAtom {
    /// The predicate's number.
    pub predicate: usize,
    /// Its arguments, filled up with zeros.
    pub arguments: [i32; 6],
}

impl GroundAtom {
    /// An atom from as many arguments as the predicate's arity.
    pub fn new(predicate: usize, given: impl IntoIterator<Item = i32>) -> Self {
        let mut arguments = [0; 6];
        for (argument, value) in arguments.iter_mut().zip(given) {
            *argument = value;
        }
        GroundAtom { predicate, arguments }
    }
}

/// An accepted log, with the predicates it speaks of.
#[derive(Clone, Debug)]
pub struct Log<'a> {
    predicates: &'a [Predicate],
    /// The atoms of the true rows, in row order.
    true_atoms: Vec<GroundAtom>,
    /// What each row says.
    truths: HashMap<GroundAtom, bool>,
}

impl<'a> Log<'a> {
    /// Questions 8 to 10: reads a log.
    pub fn read(predicates: &'a [Predicate], words: &[i32]) -> Result<Self, Refused> {
        if !words.len().is_multiple_of(ROW) || words.len() / ROW > MOST_ROWS {
            return Err(Question::LogLength.at(0));
        }
        let mut true_atoms = Vec::new();
        let mut truths = HashMap::new();
        for (number, row) in words.chunks(ROW).enumerate() {
            let (atom, truth) = read_row(predicates, row).ok_or(Question::Row.at(number))?;
            if truths.insert(atom.clone(), truth).is_some() {
                return Err(Question::Repeat.at(number));
            }
            if truth {
                true_atoms.push(atom);
            }
        }
        Ok(Log {
            predicates,
            true_atoms,
            truths,
        })
    }

    /// The number of rows.
    pub fn rows(&self) -> usize {
        self.truths.len()
    }

    /// The table's predicates.
    pub fn predicates(&self) -> &'a [Predicate] {
        self.predicates
    }

    /// The atoms of the true rows, in row order.
    pub fn true_atoms(&self) -> &[GroundAtom] {
        &self.true_atoms
    }

    /// Whether an atom is true or false; `None` if it is open.
    pub fn truth(&self, atom: &GroundAtom) -> Option<bool> {
        let complete = self.predicates[atom.predicate].complete;
        let absent = if complete { Some(false) } else { None };
        self.truths.get(atom).copied().or(absent)
    }
}

/// Question 9: the atom and the truth of one row.
fn read_row(predicates: &[Predicate], row: &[i32]) -> Option<(GroundAtom, bool)> {
    let truth = match row[1] {
        0 => false,
        1 => true,
        _ => return None,
    };
    let number = usize::try_from(row[0]).ok()?;
    let arity = predicates.get(number)?.arity;
    let (used, unused) = row[BEFORE_ARGUMENTS..].split_at(arity);
    if unused.iter().any(|word| *word != 0) {
        return None;
    }
    Some((GroundAtom::new(number, used.iter().copied()), truth))
}
