//! The hospital's policy, made of its norms.

use crate::names::{BELIEVED_NECESSARY, CONSENTED, FOR_TREATMENT, IN_ROLE, PHYSICIAN, SENT};
use crate::tree::{Node, Term};

/// The names of the norms, in the order in which the policy has them.
pub const NORMS: [&str; 3] = ["treatment", "consent", "necessity"];

/// The variables of a sending, outermost.
const SENDER: Term = Term::Variable(0);
const RECEIVER: Term = Term::Variable(1);
const PATIENT: Term = Term::Variable(2);
const DAY: Term = Term::Variable(3);

/// The next variable inside.
const SINCE: Term = Term::Variable(4);

/// For all sendings: any of the norms.
pub fn policy() -> Node {
    let norms = vec![treatment(), consent(), necessity()];
    Node::Quantifier {
        all: true,
        variables: 4,
        excluded: Vec::new(),
        restriction: Box::new(of_sending(SENT)),
        body: Box::new(Node::Join {
            all: false,
            children: norms,
        }),
    }
}

/// The receiver is a physician, and the purpose was treatment.
fn treatment() -> Node {
    let physician = atom(IN_ROLE, &[RECEIVER, Term::Constant(PHYSICIAN)]);
    Node::Join {
        all: true,
        children: vec![physician, of_sending(FOR_TREATMENT)],
    }
}

/// The patient consented, on the day of the sending or before.
fn consent() -> Node {
    Node::Quantifier {
        all: false,
        variables: 1,
        excluded: Vec::new(),
        restriction: Box::new(atom(CONSENTED, &[PATIENT, RECEIVER, SINCE])),
        body: Box::new(Node::Comparison {
            holds: true,
            offset: 0,
            left: SINCE,
            right: DAY,
        }),
    }
}

/// The sender believed in good faith that it was necessary.
fn necessity() -> Node {
    of_sending(BELIEVED_NECESSARY)
}

/// An atom that speaks of the sending.
fn of_sending(predicate: usize) -> Node {
    atom(predicate, &[SENDER, RECEIVER, PATIENT, DAY])
}

fn atom(predicate: usize, terms: &[Term]) -> Node {
    Node::Atom {
        holds: true,
        predicate,
        terms: terms.to_vec(),
    }
}

#[cfg(test)]
mod tests {
    use super::*;

    #[test]
    fn the_policy_has_its_words() {
        let sent = [2, 0, 4, 1, 0, 1, 1, 1, 2, 1, 3];
        let treatment = [6, 2, 2, 1, 2, 1, 1, 0, 3, 2, 3, 4, 1, 0, 1, 1, 1, 2, 1, 3];
        let consent = [9, 1, 0, 2, 2, 3, 1, 2, 1, 1, 1, 4, 4, 0, 1, 4, 1, 3];
        let necessity = [2, 4, 4, 1, 0, 1, 1, 1, 2, 1, 3];
        let words = [&[8, 4, 0], &sent[..], &[7, 3], &treatment, &consent, &necessity].concat();
        assert_eq!(policy().words(), words);
    }
}
