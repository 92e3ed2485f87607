//! Why and where a call is refused.

use std::error::Error;
use std::fmt;

/// The question that was answered with "no". The calls put them in this order, but 13, 14 and 15 right behind 1.
#[derive(Clone, Copy, Debug, PartialEq, Eq, PartialOrd, Ord, Hash)]
pub enum Refusal {
    /// 1: the table has a bad length (place 0) or a bad record (place: the predicate).
    Table = 1,
    /// 2: the policy has no word or too many (place 0).
    PolicyLength = 2,
    /// 3: a node is malformed or not allowed there, a node is missing, or words follow the tree (place: a word).
    Shape = 3,
    /// 4: a node lies deeper than 64 levels (place: its first word); or a text opens a 257th parenthesis at once
    /// (place: its byte).
    Level = 4,
    /// 5: an atom's predicate does not exist or has another arity (place: the atom's first word).
    Predicate = 5,
    /// 6: a variable is out of scope, or more than 16 would be in scope (place: the node's first word).
    Variable = 6,
    /// 7: the mode rule is broken (place: the first word of the atom, "some" or quantifier).
    Mode = 7,
    /// 8: the log has a bad length (place 0).
    LogLength = 8,
    /// 9: a row is bad by itself (place: the row).
    Row = 9,
    /// 10: an earlier row holds the same atom (place: the row).
    Repeat = 10,
    /// 11: scratch has too few places (place 0).
    Scratch = 11,
    /// 12: the result does not fit the buffer, or has too many words (place 0).
    Room = 12,
    /// 13: the text is not one that RFC 4180 allows (place: the first byte that cannot stand there, or the length).
    Csv = 13,
    /// 14: a record of the text is not a row, or not a good one (place: the record).
    Record = 14,
    /// 15: the text is not a policy in the TPTP typed form (place: the first byte that cannot stand there, or the
    /// length).
    Tptp = 15,
}

impl Refusal {
    /// All refusals, by their numbers.
    pub const ALL: [Refusal; 15] = [
        Refusal::Table,
        Refusal::PolicyLength,
        Refusal::Shape,
        Refusal::Level,
        Refusal::Predicate,
        Refusal::Variable,
        Refusal::Mode,
        Refusal::LogLength,
        Refusal::Row,
        Refusal::Repeat,
        Refusal::Scratch,
        Refusal::Room,
        Refusal::Csv,
        Refusal::Record,
        Refusal::Tptp,
    ];

    /// The number of the question, 1 to 15.
    pub const fn number(self) -> u32 {
        self as u32
    }

    /// The refusal with a number, if it is 1 to 15.
    pub fn from_number(number: u32) -> Option<Refusal> {
        Refusal::ALL.into_iter().find(|refusal| refusal.number() == number)
    }
}

impl fmt::Display for Refusal {
    fn fmt(&self, f: &mut fmt::Formatter<'_>) -> fmt::Result {
        f.write_str(match self {
            Refusal::Table => "the predicate table is not good",
            Refusal::PolicyLength => "the policy has no word or too many",
            Refusal::Shape => "the policy's words do not make up one tree",
            Refusal::Level => "a node or a parenthesis lies too deep",
            Refusal::Predicate => "an atom does not fit a predicate",
            Refusal::Variable => "a variable is out of scope, or too many are in scope",
            Refusal::Mode => "the mode rule is broken",
            Refusal::LogLength => "the log's length is not good",
            Refusal::Row => "a row of the log is not good",
            Refusal::Repeat => "a row repeats the atom of an earlier one",
            Refusal::Scratch => "scratch has too few places",
            Refusal::Room => "the result does not fit the buffer",
            Refusal::Csv => "the text is not one that RFC 4180 allows",
            Refusal::Record => "a record of the text is not a row",
            Refusal::Tptp => "the text is not a policy in the TPTP typed form",
        })
    }
}

/// A refusal and its place: a word of the policy, a predicate of the table, a row of the log, or a byte or a record of
/// the text, as [`Refusal`] tells.
#[derive(Clone, Copy, Debug, PartialEq, Eq, Hash)]
pub struct Refused {
    /// The question that was answered with "no".
    pub refusal: Refusal,
    /// Where, counted from 0.
    pub place: usize,
}

impl fmt::Display for Refused {
    fn fmt(&self, f: &mut fmt::Formatter<'_>) -> fmt::Result {
        let Refused { refusal, place } = self;
        write!(f, "refused by question {} at {place}: {refusal}", refusal.number())
    }
}

impl Error for Refused {}
