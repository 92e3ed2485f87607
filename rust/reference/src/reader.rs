//! Questions 2 to 6: reading the words of a policy as a tree.

use crate::answer::{Question, Refused};
use crate::mode;
use crate::table::Predicate;
use crate::tree::{Atom, Fact, Formula, Quantifier, Restriction, Term};

/// The greatest number of words of a policy or a residual.
pub const MOST_WORDS: usize = 1_048_576;

/// The greatest level of a node.
pub const MOST_LEVELS: usize = 64;

/// The greatest number of variables in scope.
pub const MOST_VARIABLES: usize = 16;

/// An accepted policy.
#[derive(Clone, Debug, PartialEq, Eq)]
pub struct Policy {
    /// Its tree.
    pub root: Formula,
    /// The greatest level of its nodes.
    pub greatest_level: usize,
}

impl Policy {
    /// Questions 2 to 7: reads a policy.
    pub fn read(predicates: &[Predicate], words: &[i32]) -> Result<Self, Refused> {
        if words.is_empty() || words.len() > MOST_WORDS {
            return Err(Question::PolicyLength.at(0));
        }
        let mut reader = Reader {
            predicates,
            words,
            next: 0,
            greatest_level: 0,
        };
        let root = reader.formula(0, None, 0)?;
        if reader.next < words.len() {
            return Err(Question::Shape.at(reader.next));
        }
        mode::check(predicates, &root)?;
        Ok(Policy {
            root,
            greatest_level: reader.greatest_level,
        })
    }
}

/// The own words of a node of tag 0 to 7, with nothing asked of predicates and variables yet.
enum Head {
    Plain(bool),
    Atom { holds: bool, fact: RawFact },
    Join { all: bool, children: i32 },
}

/// A fact whose predicate and variables may be any numbers.
enum RawFact {
    Logged { predicate: i32, terms: Vec<RawTerm> },
    Ordered { offset: i32, terms: [RawTerm; 2] },
}

/// A term whose variable may be any number.
#[derive(Clone, Copy)]
enum RawTerm {
    Constant(i32),
    Variable(i32),
}

impl Head {
    /// The node at the front of `words` and the number of its own words, if question 3 has a "yes".
    fn read(words: &[i32]) -> Option<(Head, usize)> {
        match *words {
            [tag @ 0..=1, ..] => Some((Head::Plain(tag == 1), 1)),
            [tag @ 2..=3, predicate, n @ 1..=6, ref rest @ ..] => {
                let length = 2 * n as usize;
                let terms = rest.get(..length)?.chunks(2);
                let terms = terms.map(|term| RawTerm::read(term[0], term[1]));
                let head = Head::Atom {
                    holds: tag == 2,
                    fact: RawFact::Logged {
                        predicate,
                        terms: terms.collect::<Option<_>>()?,
                    },
                };
                Some((head, 3 + length))
            }
            [tag @ 4..=5, offset, kind1, value1, kind2, value2, ..] => {
                let left = RawTerm::read(kind1, value1)?;
                let right = RawTerm::read(kind2, value2)?;
                let head = Head::Atom {
                    holds: tag == 4,
                    fact: RawFact::Ordered {
                        offset,
                        terms: [left, right],
                    },
                };
                Some((head, 6))
            }
            [tag @ 6..=7, children @ 2..=i32::MAX, ..] => {
                let all = tag == 6;
                Some((Head::Join { all, children }, 2))
            }
            _ => None,
        }
    }
}

impl RawTerm {
    fn read(kind: i32, value: i32) -> Option<Self> {
        match kind {
            0 => Some(RawTerm::Constant(value)),
            1 => Some(RawTerm::Variable(value)),
            _ => None,
        }
    }

    /// The term, unless it is a variable out of scope.
    fn in_scope(self, scope: usize) -> Option<Term> {
        match self {
            RawTerm::Constant(value) => Some(Term::Constant(value)),
            RawTerm::Variable(number) => usize::try_from(number)
                .ok()
                .filter(|number| *number < scope)
                .map(Term::Variable),
        }
    }
}

/// Goes through the words from front to back. At each node questions 3 to 6 are put in this order.
struct Reader<'a> {
    predicates: &'a [Predicate],
    words: &'a [i32],
    /// The first word not yet read.
    next: usize,
    /// The greatest level so far.
    greatest_level: usize,
}

impl Reader<'_> {
    /// Reads a formula below a node of level `above`; `under` tells whether an all-of (true) or an any-of (false)
    /// stands directly above it.
    fn formula(&mut self, above: usize, under: Option<bool>, scope: usize) -> Result<Formula, Refused> {
        let place = self.next;
        if let 8 | 9 = self.tag()? {
            return self.quantifier(above, under, scope);
        }
        let head = self.head()?;
        let level = self.level(place, above + 1)?;
        match head {
            Head::Plain(value) => Ok(Formula::Plain(value)),
            Head::Atom { holds, fact } => self.atom(place, holds, fact, scope).map(Formula::Atom),
            Head::Join { all, children } => {
                // Grows as children are read: the announced number may be absurd.
                let mut read = Vec::new();
                for _ in 0..children {
                    read.push(self.formula(level, Some(all), scope)?);
                }
                Ok(Formula::Join { all, children: read })
            }
        }
    }

    /// Reads a quantifier, whose tag is known.
    fn quantifier(&mut self, above: usize, under: Option<bool>, scope: usize) -> Result<Formula, Refused> {
        let place = self.next;
        let [tag, variables @ 1..=4, tuples @ 0..=i32::MAX, ref rest @ ..] = self.words[place..] else {
            return Err(Question::Shape.at(place));
        };
        let all = tag == 8;
        let variables = variables as usize;
        let excluded = variables
            .checked_mul(tuples as usize)
            .and_then(|length| rest.get(..length))
            .ok_or(Question::Shape.at(place))?;
        self.next += 3 + excluded.len();

        let cost = if under == Some(all) { 1 } else { 2 };
        let level = self.level(place, above + cost)?;
        let scope = self.bind(place, scope, variables)?;
        let excluded = excluded.to_vec();
        let restriction = self.restriction(level, scope)?;
        let body = self.formula(level, None, scope)?;
        Ok(Formula::Quantifier(Box::new(Quantifier {
            place,
            all,
            variables,
            excluded,
            restriction,
            body,
        })))
    }

    /// Reads a restriction below a node of level `above`.
    fn restriction(&mut self, above: usize, scope: usize) -> Result<Restriction, Refused> {
        let place = self.next;
        if self.tag()? == 10 {
            return self.some(above, scope);
        }
        let head = self.head()?;
        let level = self.level(place, above + 1)?;
        match head {
            Head::Plain(value) => Ok(Restriction::Plain(value)),
            Head::Atom { holds, fact } => self.atom(place, holds, fact, scope).map(Restriction::Atom),
            Head::Join { all, children } => {
                let mut read = Vec::new();
                for _ in 0..children {
                    read.push(self.restriction(level, scope)?);
                }
                Ok(Restriction::Join { all, children: read })
            }
        }
    }

    /// Reads a "some", whose tag is known.
    fn some(&mut self, above: usize, scope: usize) -> Result<Restriction, Refused> {
        let place = self.next;
        self.next += 1;
        let level = self.level(place, above + 1)?;
        let inner = self.bind(place, scope, 1)?;
        Ok(Restriction::Some {
            place,
            variable: scope,
            child: Box::new(self.restriction(level, inner)?),
        })
    }

    /// Question 3, the missing node: the tag of the next node.
    fn tag(&self) -> Result<i32, Refused> {
        let tag = self.words.get(self.next).copied();
        tag.ok_or(Question::Shape.at(self.words.len()))
    }

    /// Question 3 at a node of tag 0 to 7, and no other tag is allowed.
    fn head(&mut self) -> Result<Head, Refused> {
        let (head, length) = Head::read(&self.words[self.next..]).ok_or(Question::Shape.at(self.next))?;
        self.next += length;
        Ok(head)
    }

    /// Question 4.
    fn level(&mut self, place: usize, level: usize) -> Result<usize, Refused> {
        if level > MOST_LEVELS {
            return Err(Question::Level.at(place));
        }
        self.greatest_level = self.greatest_level.max(level);
        Ok(level)
    }

    /// Questions 5 and 6 at an atom.
    fn atom(&self, place: usize, holds: bool, fact: RawFact, scope: usize) -> Result<Atom, Refused> {
        let out_of_scope = Question::Variable.at(place);
        let fact = match fact {
            RawFact::Logged { predicate, terms } => {
                let predicate = usize::try_from(predicate)
                    .ok()
                    .filter(|number| {
                        let known = self.predicates.get(*number);
                        known.is_some_and(|known| known.arity == terms.len())
                    })
                    .ok_or(Question::Predicate.at(place))?;
                let terms = terms.into_iter().map(|term| term.in_scope(scope));
                Fact::Logged {
                    predicate,
                    terms: terms.collect::<Option<_>>().ok_or(out_of_scope)?,
                }
            }
            RawFact::Ordered { offset, terms } => {
                let [left, right] = terms.map(|term| term.in_scope(scope));
                Fact::Ordered {
                    offset,
                    terms: [left.ok_or(out_of_scope)?, right.ok_or(out_of_scope)?],
                }
            }
        };
        Ok(Atom { place, holds, fact })
    }

    /// Question 6 at a binder: the number of variables in scope below it.
    fn bind(&self, place: usize, scope: usize, variables: usize) -> Result<usize, Refused> {
        let inner = scope + variables;
        if inner > MOST_VARIABLES {
            return Err(Question::Variable.at(place));
        }
        Ok(inner)
    }
}
