//! Truth by plain evaluation: variables try all values of a small universe.
//!
//! If all rows and constants lie in the universe, reduction keeps the truth here as it does over all whole numbers.

use crate::log::{GroundAtom, Log};
use crate::tree::{Atom, Fact, Formula, Quantifier, Restriction, Term};

/// Values for the variables 0, 1, ...
type Values = Vec<i32>;

/// A log and the values that variables range over.
#[derive(Clone, Debug)]
pub struct Structure<'a> {
    /// What is known.
    pub log: &'a Log<'a>,
    /// The values.
    pub universe: &'a [i32],
}

impl Structure<'_> {
    /// Whether a closed formula is true or false; `None` if it is open.
    pub fn truth(&self, formula: &Formula) -> Option<bool> {
        self.formula(formula, &Values::new())
    }

    /// Whether nothing is left to do: outside quantifiers no atom is decided, and no tuple that is not excluded has a
    /// true restriction.
    pub fn is_settled(&self, formula: &Formula) -> bool {
        match formula {
            Formula::Plain(_) => true,
            Formula::Atom(atom) => self.atom(atom, &Values::new()).is_none(),
            Formula::Join { children, .. } => children.iter().all(|child| self.is_settled(child)),
            Formula::Quantifier(quantifier) => self
                .extended(&Values::new(), quantifier.variables)
                .iter()
                .all(|tuple| self.restricted(quantifier, tuple, 0) != Some(true)),
        }
    }

    /// All extensions of `values` by so many more.
    fn extended(&self, values: &Values, count: usize) -> Vec<Values> {
        (0..count).fold(vec![values.clone()], |shorter, _| {
            let longer = |values: &Values| {
                let values = values.clone();
                self.universe.iter().map(move |value| [&values[..], &[*value]].concat())
            };
            shorter.iter().flat_map(longer).collect()
        })
    }

    fn formula(&self, formula: &Formula, values: &Values) -> Option<bool> {
        match formula {
            Formula::Plain(value) => Some(*value),
            Formula::Atom(atom) => self.atom(atom, values),
            Formula::Join { all: true, children } => all(children.iter().map(|child| self.formula(child, values))),
            Formula::Join { all: false, children } => any(children.iter().map(|child| self.formula(child, values))),
            Formula::Quantifier(quantifier) => {
                let restricted = |inner| self.restricted(quantifier, inner, values.len());
                let tuples = self.extended(values, quantifier.variables);
                if quantifier.all {
                    let implies = |inner| any([not(restricted(inner)), self.formula(&quantifier.body, inner)]);
                    all(tuples.iter().map(implies))
                } else {
                    let both = |inner| all([restricted(inner), self.formula(&quantifier.body, inner)]);
                    any(tuples.iter().map(both))
                }
            }
        }
    }

    /// The truth of a quantifier's restriction at values of which the first `outer` belong to outer variables: false
    /// if the others are an excluded tuple.
    fn restricted(&self, quantifier: &Quantifier, values: &Values, outer: usize) -> Option<bool> {
        let mut excluded = quantifier.excluded.chunks(quantifier.variables);
        if excluded.any(|excluded| *excluded == values[outer..]) {
            return Some(false);
        }
        self.restriction(&quantifier.restriction, values)
    }

    fn restriction(&self, restriction: &Restriction, values: &Values) -> Option<bool> {
        match restriction {
            Restriction::Plain(value) => Some(*value),
            Restriction::Atom(atom) => self.atom(atom, values),
            Restriction::Join { all: true, children } => {
                all(children.iter().map(|child| self.restriction(child, values)))
            }
            Restriction::Join { all: false, children } => {
                any(children.iter().map(|child| self.restriction(child, values)))
            }
            Restriction::Some { child, .. } => {
                let values = self.extended(values, 1);
                any(values.iter().map(|values| self.restriction(child, values)))
            }
        }
    }

    fn atom(&self, atom: &Atom, values: &Values) -> Option<bool> {
        let value = |term: &Term| match *term {
            Term::Constant(value) => value,
            Term::Variable(number) => values[number],
        };
        let truth = match &atom.fact {
            Fact::Logged { predicate, terms } => self.log.truth(&GroundAtom::new(*predicate, terms.iter().map(value))),
            Fact::Ordered { offset, terms } => {
                let [left, right] = [value(&terms[0]), value(&terms[1])];
                Some(i128::from(left) + i128::from(*offset) <= i128::from(right))
            }
        };
        if atom.holds {
            truth
        } else {
            not(truth)
        }
    }
}

/// False if one is false, true if all are true, else open.
fn all(truths: impl IntoIterator<Item = Option<bool>>) -> Option<bool> {
    let mut open = false;
    for truth in truths {
        match truth {
            Some(false) => return Some(false),
            Some(true) => {}
            None => open = true,
        }
    }
    (!open).then_some(true)
}

fn not(truth: Option<bool>) -> Option<bool> {
    truth.map(|truth| !truth)
}

/// The dual of [`all`].
fn any(truths: impl IntoIterator<Item = Option<bool>>) -> Option<bool> {
    not(all(truths.into_iter().map(not)))
}
