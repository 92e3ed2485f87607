//! What a call answers: accepted with a count, or refused by a question at a place.

/// The answer of a call.
#[derive(Clone, Copy, Debug, PartialEq, Eq)]
pub struct Answer {
    /// 0 if accepted, else the number of the question that was answered with "no".
    pub number: u32,
    /// Where that question was put; 0 if accepted.
    pub place: usize,
    /// What the call counts; 0 if refused.
    pub count: usize,
}

impl Answer {
    /// An accepted call with its count.
    pub const fn accepted(count: usize) -> Self {
        Answer {
            number: 0,
            place: 0,
            count,
        }
    }

    /// A call refused by a question at a place.
    pub const fn refused(number: u32, place: usize) -> Self {
        Answer {
            number,
            place,
            count: 0,
        }
    }
}

impl From<Result<usize, Refused>> for Answer {
    fn from(result: Result<usize, Refused>) -> Self {
        match result {
            Ok(count) => Answer::accepted(count),
            Err(Refused { question, place }) => Answer::refused(question as u32, place),
        }
    }
}

/// The questions, with their numbers.
#[derive(Clone, Copy, Debug, PartialEq, Eq)]
pub enum Question {
    /// Is the table good?
    Table = 1,
    /// Has the policy a good number of words?
    PolicyLength = 2,
    /// Are the nodes well formed, and do they make up one tree?
    Shape = 3,
    /// Is the node within the limit of levels, or the parenthesis within that of open ones?
    Level = 4,
    /// Does the atom fit a predicate?
    Predicate = 5,
    /// Are the variables in scope, and not too many?
    Variable = 6,
    /// Does the mode rule hold?
    Mode = 7,
    /// Has the log a good number of words?
    LogLength = 8,
    /// Is the row good by itself?
    Row = 9,
    /// Is the row's atom new?
    Repeat = 10,
    /// Has scratch enough places?
    Scratch = 11,
    /// Does the result fit the buffer?
    Room = 12,
    /// Is the text one that RFC 4180 allows?
    Csv = 13,
    /// Is the record a row, and good by itself?
    Record = 14,
    /// Is the text a policy in the TPTP typed form?
    Tptp = 15,
}

impl Question {
    /// The refusal by this question at a place.
    pub const fn at(self, place: usize) -> Refused {
        Refused { question: self, place }
    }
}

/// A question answered with "no", and where.
#[derive(Clone, Copy, Debug, PartialEq, Eq)]
pub struct Refused {
    /// The question.
    pub question: Question,
    /// The place that goes with it.
    pub place: usize,
}
