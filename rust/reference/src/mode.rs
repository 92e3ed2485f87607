//! Question 7: the mode rule.

use std::collections::BTreeSet;

use crate::answer::{Question, Refused};
use crate::table::Predicate;
use crate::tree::{Atom, Fact, Formula, Restriction, Term};

/// A set of bound variables.
type Bound = BTreeSet<usize>;

/// Asks question 7 of a whole policy.
pub fn check(predicates: &[Predicate], policy: &Formula) -> Result<(), Refused> {
    check_below(predicates, policy, 0)
}

/// Asks it of a formula with `scope` variables bound by the quantifiers above.
fn check_below(predicates: &[Predicate], formula: &Formula, scope: usize) -> Result<(), Refused> {
    match formula {
        Formula::Plain(_) | Formula::Atom(_) => Ok(()),
        Formula::Join { children, .. } => children
            .iter()
            .try_for_each(|child| check_below(predicates, child, scope)),
        Formula::Quantifier(quantifier) => {
            let outer: Bound = (0..scope).collect();
            let bound = bind(predicates, &quantifier.restriction, outer)?;
            let inner = scope + quantifier.variables;
            if !(scope..inner).all(|variable| bound.contains(&variable)) {
                return Err(Question::Mode.at(quantifier.place));
            }
            check_below(predicates, &quantifier.body, inner)
        }
    }
}

/// The variables bound behind a restriction that starts with the set `bound`.
fn bind(predicates: &[Predicate], restriction: &Restriction, bound: Bound) -> Result<Bound, Refused> {
    match restriction {
        Restriction::Plain(_) => Ok(bound),
        Restriction::Atom(atom) => bind_atom(predicates, atom, bound),
        Restriction::Join { all: true, children } => children
            .iter()
            .try_fold(bound, |bound, child| bind(predicates, child, bound)),
        Restriction::Join { all: false, children } => {
            let mut branches = children.iter().map(|child| bind(predicates, child, bound.clone()));
            let first = branches.next().unwrap_or(Ok(Bound::new()))?;
            branches.try_fold(first, |common, branch| Ok(&common & &branch?))
        }
        Restriction::Some { place, variable, child } => {
            let mut bound = bind(predicates, child, bound)?;
            if !bound.remove(variable) {
                return Err(Question::Mode.at(*place));
            }
            Ok(bound)
        }
    }
}

/// The same for an atom.
fn bind_atom(predicates: &[Predicate], atom: &Atom, mut bound: Bound) -> Result<Bound, Refused> {
    let is_bound = |term: &Term| match term {
        Term::Constant(_) => true,
        Term::Variable(number) => bound.contains(number),
    };
    let terms = atom.fact.terms();
    let binds = atom.holds && matches!(atom.fact, Fact::Logged { .. });
    let good = match &atom.fact {
        Fact::Logged { predicate, .. } if atom.holds => {
            let inputs = &predicates[*predicate].inputs;
            let mut terms = terms.iter().zip(inputs);
            terms.all(|(term, input)| !input || is_bound(term))
        }
        _ => terms.iter().all(is_bound),
    };
    if !good {
        return Err(Question::Mode.at(atom.place));
    }
    if binds {
        bound.extend(terms.iter().filter_map(|term| match term {
            Term::Constant(_) => None,
            Term::Variable(number) => Some(*number),
        }));
    }
    Ok(bound)
}
