//! The dual of a formula.

use crate::tree::{Atom, Formula, Quantifier};

/// The dual: each formula node swapped with its counterpart, restrictions and excluded tuples kept.
pub fn dual(formula: Formula) -> Formula {
    match formula {
        Formula::Plain(value) => Formula::Plain(!value),
        Formula::Atom(atom) => Formula::Atom(Atom {
            holds: !atom.holds,
            ..atom
        }),
        Formula::Join { all, children } => Formula::Join {
            all: !all,
            children: children.into_iter().map(dual).collect(),
        },
        Formula::Quantifier(quantifier) => Formula::Quantifier(Box::new(Quantifier {
            all: !quantifier.all,
            body: dual(quantifier.body),
            ..*quantifier
        })),
    }
}
