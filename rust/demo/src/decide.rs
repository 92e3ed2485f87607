//! What a log decides: of the whole policy, and of each sending. Every answer is the library's.

use crate::log::{fact, ROW};
use crate::names::{table, PREDICATES, SENT};
use crate::tree::Node;
use vitrinehawk::{audit, Refused};

/// Words enough for small audits.
const MOST_WORDS: usize = 100_000;

/// The residual of a formula over a log.
pub fn residual(formula: &Node, log: &[i32]) -> Result<Node, Refused> {
    let words = audit(&table(), &formula.words(), log, MOST_WORDS)?;
    Ok(Node::read(&words).expect("a residual is a policy"))
}

/// A sending in the log.
#[derive(Clone, Debug, PartialEq, Eq)]
pub struct Sending {
    /// Its row, from 0.
    pub row: usize,
    /// Sender, receiver, patient and day.
    pub tuple: Vec<i32>,
}

/// The sendings of a log, in row order.
pub fn sendings(log: &[i32]) -> Vec<Sending> {
    let rows = log.chunks(ROW).enumerate();
    let sent = rows.filter(|(_, words)| words[..2] == [SENT as i32, 1]);
    let arity = PREDICATES[SENT].arguments.len();
    let sending = |(row, words): (usize, &[i32])| Sending {
        row,
        tuple: words[2..2 + arity].to_vec(),
    };
    sent.map(sending).collect()
}

/// What a log decides of a sending.
#[derive(Clone, Debug, PartialEq, Eq)]
pub enum Decision {
    /// The first norm that is true of it, and rows that are enough for that.
    Permitted { norm: usize, rows: Vec<usize> },
    /// No norm is true of it: why each one fails.
    Violation(Vec<Failure>),
    /// The residual of the norms, and the norms that are false.
    Left { residual: Node, failed: Vec<usize> },
}

/// A part of a norm that is false, so that the norm is false.
#[derive(Clone, Debug, PartialEq, Eq)]
pub struct Failure {
    /// The part.
    pub part: Node,
    /// The row of its atom, if the part is an atom that has one.
    pub row: Option<usize>,
}

/// Puts a sending into the body of a policy (for all sendings: any of the norms), and reduces that.
pub fn decide(policy: &Node, sending: &Sending, log: &[i32]) -> Result<Decision, Refused> {
    let Node::Quantifier { body, .. } = policy else {
        panic!("the policy is a for-all");
    };
    let body = body.put(&sending.tuple);
    let Node::Join { all: false, children } = &body else {
        panic!("its body is an any-of");
    };
    Ok(match residual(&body, log)? {
        Node::Plain(true) => {
            let mut norm = 0;
            while residual(&children[norm], log)? != Node::Plain(true) {
                norm += 1;
            }
            let rows = enough_rows(&children[norm], log)?;
            Decision::Permitted { norm, rows }
        }
        Node::Plain(false) => {
            let failures = children.iter().map(|norm| failure(norm, log));
            Decision::Violation(failures.collect::<Result<_, _>>()?)
        }
        residual => {
            let failed = false_norms(children, log)?;
            Decision::Left { residual, failed }
        }
    })
}

/// The norms that are false in a log.
fn false_norms(norms: &[Node], log: &[i32]) -> Result<Vec<usize>, Refused> {
    let mut failed = Vec::new();
    for (number, norm) in norms.iter().enumerate() {
        if residual(norm, log)? == Node::Plain(false) {
            failed.push(number);
        }
    }
    Ok(failed)
}

/// Rows of a log that alone make a norm true, none of which can be left out.
///
/// The norm is true in the log. It has no dual atom and no for-all, so fewer rows never make it true.
fn enough_rows(norm: &Node, log: &[i32]) -> Result<Vec<usize>, Refused> {
    let mut rows: Vec<usize> = (0..log.len() / ROW).collect();
    for row in (0..rows.len()).rev() {
        let fewer: Vec<usize> = rows.iter().copied().filter(|other| *other != row).collect();
        let part: Vec<i32> = fewer.iter().flat_map(|row| &log[ROW * row..][..ROW]).copied().collect();
        if residual(norm, &part)? == Node::Plain(true) {
            rows = fewer;
        }
    }
    Ok(rows)
}

/// Why a formula is false in a log: itself, or the first child of an all-of that is false.
fn failure(formula: &Node, log: &[i32]) -> Result<Failure, Refused> {
    if let Node::Join { all: true, children } = formula {
        for child in children {
            if residual(child, log)? == Node::Plain(false) {
                return failure(child, log);
            }
        }
    }
    let mut facts = log.chunks(ROW).map(fact);
    let row = match formula {
        Node::Atom { predicate, terms, .. } => facts.position(|fact| match fact {
            Node::Atom {
                predicate: of,
                terms: at,
                ..
            } => of == *predicate && at == *terms,
            _ => false,
        }),
        _ => None,
    };
    Ok(Failure {
        part: formula.clone(),
        row,
    })
}

/// The parts of a residual, all of which are left.
pub fn parts(residual: &Node) -> &[Node] {
    match residual {
        Node::Join { all: true, children } => children,
        one => std::slice::from_ref(one),
    }
}

/// The open predicates among the atoms of a formula, by their numbers; of a quantifier, those of its restriction.
pub fn open_predicates(formula: &Node) -> Vec<usize> {
    let mut open = match formula {
        Node::Atom { predicate, .. } if !PREDICATES[*predicate].complete => vec![*predicate],
        Node::Join { children, .. } => children.iter().flat_map(open_predicates).collect(),
        Node::Quantifier { restriction, .. } => open_predicates(restriction),
        Node::Some(child) => open_predicates(child),
        _ => Vec::new(),
    };
    open.sort_unstable();
    open.dedup();
    open
}

#[cfg(test)]
mod tests {
    use super::*;
    use crate::log::row;
    use crate::names::*;
    use crate::policy::policy;
    use crate::tree::Term;

    const TUPLE: [i32; 4] = [HUBER, ADLER, LINDT, 10];

    /// What is decided of the sending, which is the first row.
    fn decided(rows: &[[i32; ROW]]) -> Decision {
        let log = [&[row(SENT, true, &TUPLE)], rows].concat().concat();
        let tuple = TUPLE.to_vec();
        let sendings = sendings(&log);
        assert_eq!(sendings, [Sending { row: 0, tuple }]);
        decide(&policy(), &sendings[0], &log).expect("accepted")
    }

    fn consent(day: i32) -> [i32; ROW] {
        row(CONSENTED, true, &[LINDT, ADLER, day])
    }

    #[test]
    fn other_rows_are_no_sendings() {
        assert_eq!(sendings(&row(SENT, false, &TUPLE)), []);
        assert_eq!(sendings(&row(FOR_TREATMENT, true, &TUPLE)), []);
    }

    #[test]
    fn a_consent_counts_from_its_day_on() {
        let (norm, rows) = (1, vec![1]);
        assert_eq!(decided(&[consent(10)]), Decision::Permitted { norm, rows });
        assert!(matches!(decided(&[consent(11)]), Decision::Left { failed, .. } if failed == [0, 1]));
    }

    #[test]
    fn no_row_is_named_that_can_be_left_out() {
        let (norm, rows) = (1, vec![2]);
        let nurse = row(IN_ROLE, true, &[ADLER, NURSE]);
        let decision = decided(&[consent(11), consent(3), consent(2), nurse]);
        assert_eq!(decision, Decision::Permitted { norm, rows });
    }

    #[test]
    fn the_first_false_part_of_a_norm_is_named() {
        let physician = row(IN_ROLE, true, &[ADLER, PHYSICIAN]);
        let [treatment, belief] = [FOR_TREATMENT, BELIEVED_NECESSARY].map(|predicate| row(predicate, false, &TUPLE));
        let Decision::Violation(failures) = decided(&[physician, consent(11), treatment, belief]) else {
            panic!("a violation");
        };
        let rows: Vec<Option<usize>> = failures.iter().map(|failure| failure.row).collect();
        assert_eq!(rows, [Some(3), None, Some(4)]);
        let parts = failures.iter().map(|failure| failure.part.words()[..2].to_vec());
        assert_eq!(parts.collect::<Vec<_>>(), [[2, 3], [9, 1], [2, 4]]);
    }

    #[test]
    fn open_predicates_are_found() {
        let atom = |holds, predicate: usize| Node::Atom {
            holds,
            predicate,
            terms: vec![Term::Constant(1); PREDICATES[predicate].arguments.len()],
        };
        let children = vec![
            atom(true, BELIEVED_NECESSARY),
            atom(true, IN_ROLE),
            atom(false, FOR_TREATMENT),
            atom(false, BELIEVED_NECESSARY),
        ];
        let join = Node::Join { all: false, children };
        assert_eq!(open_predicates(&join), [FOR_TREATMENT, BELIEVED_NECESSARY]);
        assert_eq!(open_predicates(&policy()), [SENT]);
        assert_eq!(open_predicates(&Node::Plain(true)), []);
    }
}
