//! Listing: the tuples at which a restriction is true in a log.

use std::collections::HashSet;

use crate::log::{GroundAtom, Log};
use crate::reader::MOST_VARIABLES;
use crate::tree::{Atom, Fact, Quantifier, Restriction, Term};

/// For each variable its value, if it is bound.
type Environment = [Option<i32>; MOST_VARIABLES];

/// More list entries than were allowed.
#[derive(Debug)]
pub struct TooMany;

/// The outcome of listing a quantifier's restriction.
#[derive(Debug)]
pub struct Listed {
    /// The tuples in the order of the restriction's list, as often as they stand in it.
    pub tuples: Vec<Vec<i32>>,
    /// The instances: the listed tuples that are not excluded, each once, in order of first appearance.
    pub instances: Vec<Vec<i32>>,
    /// The entries of the lists of all restriction nodes together.
    pub entries: usize,
}

/// Lists a closed quantifier's restriction, if its nodes' lists have at most `most` entries together.
pub fn list(log: &Log, quantifier: &Quantifier, most: usize) -> Result<Listed, TooMany> {
    let mut lister = Lister { log, left: most };
    let list = lister.list(&quantifier.restriction, &[[None; MOST_VARIABLES]])?;
    let mut seen: HashSet<Vec<i32>> = quantifier
        .excluded
        .chunks(quantifier.variables)
        .map(<[i32]>::to_vec)
        .collect();
    let tuple = |environment: &Environment| {
        let values = environment[..quantifier.variables].iter();
        let tuple: Option<Vec<i32>> = values.copied().collect();
        tuple.expect("the mode rule binds a quantifier's variables")
    };
    let tuples: Vec<_> = list.iter().map(tuple).collect();
    let instances = tuples.iter().filter(|tuple| seen.insert((*tuple).clone()));
    Ok(Listed {
        instances: instances.cloned().collect(),
        tuples,
        entries: most - lister.left,
    })
}

struct Lister<'a> {
    log: &'a Log<'a>,
    /// How many more entries are allowed.
    left: usize,
}

impl Lister<'_> {
    /// The list that a restriction node makes from the list it is handed.
    fn list(&mut self, restriction: &Restriction, from: &[Environment]) -> Result<Vec<Environment>, TooMany> {
        let list = match restriction {
            Restriction::Plain(true) => from.to_vec(),
            Restriction::Plain(false) => Vec::new(),
            Restriction::Atom(atom) => self.list_atom(atom, from)?,
            Restriction::Join { all: true, children } => {
                let mut list = from.to_vec();
                for child in children {
                    list = self.list(child, &list)?;
                }
                list
            }
            Restriction::Join { all: false, children } => {
                let mut list = Vec::new();
                for child in children {
                    list.extend(self.list(child, from)?);
                }
                list
            }
            Restriction::Some { variable, child, .. } => {
                let mut list = self.list(child, from)?;
                for environment in &mut list {
                    environment[*variable] = None;
                }
                list
            }
        };
        self.left = self.left.checked_sub(list.len()).ok_or(TooMany)?;
        Ok(list)
    }

    /// The same for an atom.
    fn list_atom(&self, atom: &Atom, from: &[Environment]) -> Result<Vec<Environment>, TooMany> {
        let mut list = Vec::new();
        for environment in from {
            match &atom.fact {
                Fact::Logged { predicate, terms } if atom.holds => {
                    let rows = self.log.true_atoms().iter();
                    let rows = rows.filter(|row| row.predicate == *predicate);
                    list.extend(rows.filter_map(|row| fit(terms, &row.arguments, *environment)));
                }
                _ => {
                    if truth(self.log, atom, environment) == Some(true) {
                        list.push(*environment);
                    }
                }
            }
            if list.len() > self.left {
                return Err(TooMany);
            }
        }
        Ok(list)
    }
}

/// The environment in which the terms have the arguments' values, if it can be got by binding more variables.
fn fit(terms: &[Term], arguments: &[i32], mut environment: Environment) -> Option<Environment> {
    for (term, argument) in terms.iter().zip(arguments) {
        let value = match term {
            Term::Constant(value) => value,
            Term::Variable(number) => environment[*number].get_or_insert(*argument),
        };
        if value != argument {
            return None;
        }
    }
    Some(environment)
}

/// Whether an atom or its dual is true or false in a log, at an environment that binds its variables; `None` if open.
fn truth(log: &Log, atom: &Atom, environment: &Environment) -> Option<bool> {
    let value = |term: &Term| match term {
        Term::Constant(value) => *value,
        Term::Variable(number) => environment[*number].expect("the mode rule binds it"),
    };
    let fact = match &atom.fact {
        Fact::Logged { predicate, terms } => {
            let ground = GroundAtom::new(*predicate, terms.iter().map(value));
            log.truth(&ground)?
        }
        Fact::Ordered { offset, terms } => {
            let [left, right] = [&terms[0], &terms[1]].map(|term| i64::from(value(term)));
            left + i64::from(*offset) <= right
        }
    };
    Some(fact == atom.holds)
}

/// Whether a ground atom or its dual is true or false in a log; `None` if open.
pub fn ground_truth(log: &Log, atom: &Atom) -> Option<bool> {
    truth(log, atom, &[None; MOST_VARIABLES])
}
