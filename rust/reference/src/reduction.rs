//! Reduction: the residual of a policy over a log, and the places of scratch it needs.

use crate::listing::{ground_truth, list};
use crate::log::Log;
use crate::tree::{Fact, Formula, Quantifier, Restriction};

/// The places of scratch that reducing a closed formula needs, or `None` if these are more than `most`.
pub fn places(log: &Log, formula: &Formula, most: usize) -> Option<usize> {
    match formula {
        Formula::Plain(_) | Formula::Atom(_) => Some(0),
        Formula::Join { children, .. } => children
            .iter()
            .try_fold(0, |greatest, child| Some(greatest.max(places(log, child, most)?))),
        Formula::Quantifier(quantifier) => {
            let left = most.checked_sub(1)?;
            let listed = list(log, quantifier, left).ok()?;
            let left = left - listed.entries;
            let greatest = listed.instances.iter().try_fold(0, |greatest, instance| {
                let body = quantifier.body.put_in(instance);
                Some(greatest.max(places(log, &body, left)?))
            })?;
            Some(1 + listed.entries + greatest)
        }
    }
}

/// A reduced formula.
pub enum Residual {
    /// Plain true or plain false.
    Plain(bool),
    /// Any other formula, with the number of its words.
    Open(Formula, usize),
    /// A formula of more words than allowed. A join above it has more words still, unless it becomes plain.
    TooLong,
}

/// Reduces closed formulas over one log to residuals of at most `most` words.
pub struct Reducer<'a> {
    /// The log.
    pub log: &'a Log<'a>,
    /// The greatest number of words.
    pub most: usize,
}

impl Reducer<'_> {
    /// Reduces a closed formula.
    pub fn reduce(&self, formula: &Formula) -> Residual {
        match formula {
            Formula::Plain(value) => Residual::Plain(*value),
            Formula::Atom(atom) => match ground_truth(self.log, atom) {
                Some(value) => Residual::Plain(value),
                None => self.open(formula.clone()),
            },
            Formula::Join { all, children } => self.join(*all, children.iter().map(|child| self.reduce(child))),
            Formula::Quantifier(quantifier) => self.reduce_quantifier(quantifier),
        }
    }

    /// The bodies at the instances, and last what remains of the quantifier.
    fn reduce_quantifier(&self, quantifier: &Quantifier) -> Residual {
        let listed = list(self.log, quantifier, usize::MAX).expect("no limit");
        let bodies = listed
            .instances
            .iter()
            .map(|instance| self.reduce(&quantifier.body.put_in(instance)));
        let rest = std::iter::once_with(|| {
            if self.is_complete(&quantifier.restriction) {
                return Residual::Plain(quantifier.all);
            }
            let mut rest = quantifier.clone();
            rest.excluded.extend(listed.instances.iter().flatten());
            self.open(Formula::Quantifier(Box::new(rest)))
        });
        self.join(quantifier.all, bodies.chain(rest))
    }

    /// Whether every predicate's atom of a restriction has a complete predicate.
    fn is_complete(&self, restriction: &Restriction) -> bool {
        match restriction {
            Restriction::Plain(_) => true,
            Restriction::Atom(atom) => match atom.fact {
                Fact::Logged { predicate, .. } => self.log.predicates()[predicate].complete,
                Fact::Ordered { .. } => true,
            },
            Restriction::Join { children, .. } => children.iter().all(|child| self.is_complete(child)),
            Restriction::Some { child, .. } => self.is_complete(child),
        }
    }

    /// The all-of or any-of of reduced parts.
    fn join(&self, all: bool, parts: impl Iterator<Item = Residual>) -> Residual {
        let mut children = Vec::new();
        let mut length = 0;
        let mut too_long = false;
        for part in parts {
            match part {
                Residual::Plain(value) if value == all => {}
                Residual::Plain(value) => return Residual::Plain(value),
                Residual::TooLong => too_long = true,
                Residual::Open(
                    Formula::Join {
                        all: same,
                        children: more,
                    },
                    words,
                ) if same == all => {
                    children.extend(more);
                    length += words - 2;
                }
                Residual::Open(formula, words) => {
                    children.push(formula);
                    length += words;
                }
            }
            if too_long || length > self.most {
                too_long = true;
                children.clear();
                length = 0;
            }
        }
        if too_long {
            return Residual::TooLong;
        }
        match children.len() {
            0 => Residual::Plain(all),
            1 => Residual::Open(children.remove(0), length),
            _ if length + 2 > self.most => Residual::TooLong,
            _ => Residual::Open(Formula::Join { all, children }, length + 2),
        }
    }

    /// A formula that stays as it is.
    fn open(&self, formula: Formula) -> Residual {
        let words = formula.to_words().len();
        if words > self.most {
            return Residual::TooLong;
        }
        Residual::Open(formula, words)
    }
}
