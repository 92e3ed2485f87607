//! The hospital's log, and the rows that later rounds add.

use crate::names::*;
use crate::tree::{Node, Term};

/// The words of a row.
pub const ROW: usize = 8;

/// What is recorded at first.
pub fn first() -> Vec<i32> {
    [
        row(IN_ROLE, true, &[ADLER, PHYSICIAN]),
        row(IN_ROLE, true, &[HUBER, NURSE]),
        row(IN_ROLE, true, &[BRANDT, CLERK]),
        row(IN_ROLE, true, &[RUIZ, INSURER]),
        row(IN_ROLE, true, &[KERN, POLICE]),
        row(CONSENTED, true, &[WEISS, RUIZ, 9]),
        row(CONSENTED, true, &[MOREAU, ADLER, 17]),
        row(SENT, true, &[HUBER, ADLER, LINDT, 10]),
        row(FOR_TREATMENT, true, &[HUBER, ADLER, LINDT, 10]),
        row(SENT, true, &[HUBER, RUIZ, WEISS, 12]),
        row(SENT, true, &[HUBER, KERN, OKAFOR, 14]),
        row(SENT, true, &[HUBER, ADLER, MOREAU, 15]),
    ]
    .concat()
}

/// An officer asked about a purpose, and one more sending came to light.
pub fn second() -> Vec<i32> {
    [
        row(FOR_TREATMENT, true, &[HUBER, ADLER, MOREAU, 15]),
        row(SENT, true, &[BRANDT, RUIZ, WEISS, 16]),
    ]
    .concat()
}

/// An officer asked about a belief, and the answer was no.
pub fn third() -> Vec<i32> {
    row(BELIEVED_NECESSARY, false, &[HUBER, KERN, OKAFOR, 14]).to_vec()
}

/// A row of a predicate.
pub fn row(predicate: usize, truth: bool, arguments: &[i32]) -> [i32; ROW] {
    let mut row = [0; ROW];
    row[0] = predicate as i32;
    row[1] = i32::from(truth);
    row[2..2 + arguments.len()].copy_from_slice(arguments);
    row
}

/// A row of an accepted log as a formula: its atom holds, or fails.
pub fn fact(row: &[i32]) -> Node {
    let predicate = row[0] as usize;
    let arguments = &row[2..2 + PREDICATES[predicate].arguments.len()];
    Node::Atom {
        holds: row[1] == 1,
        predicate,
        terms: arguments.iter().map(|number| Term::Constant(*number)).collect(),
    }
}
