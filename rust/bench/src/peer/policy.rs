//! The policy: questions 2 to 7 in one pass over its words. Question 7 is asked on the way, and its first "no" is kept
//! until the whole policy has passed the others. The reduction has the quantifiers noted.

use super::log::Record;
use super::{Refused, MOST_WORDS};

/// The greatest level of a node.
const MOST_LEVELS: usize = 64;

/// The greatest number of variables in scope.
pub const MOST_VARIABLES: usize = 16;

/// A set of variables, one bit each.
pub type Variables = u32;

/// Where the parts of a quantifier stand. A policy's quantifiers are numbered in preorder: those of its body follow it.
#[derive(Clone, Copy)]
pub struct Quantifier {
    /// The index of its restriction.
    pub restriction: usize,
    /// The index of its body.
    pub body: usize,
    /// The index behind it.
    pub next: usize,
    /// The number of the first quantifier that does not stand in its body.
    pub after: usize,
    /// Whether every predicate's atom of the restriction has a complete predicate.
    pub closed: bool,
}

/// Asks questions 2 to 7.
pub fn accept(predicates: &[Record], words: &[i32]) -> Result<(), Refused> {
    read::<false>(predicates, words).map(|_| ())
}

/// Asks questions 2 to 7 and returns the quantifiers.
pub fn check(predicates: &[Record], words: &[i32]) -> Result<Vec<Quantifier>, Refused> {
    read::<true>(predicates, words)
}

/// Asks questions 2 to 7 and returns the quantifiers, or none of them.
fn read<const NOTED: bool>(predicates: &[Record], words: &[i32]) -> Result<Vec<Quantifier>, Refused> {
    if words.is_empty() || words.len() > MOST_WORDS {
        return Err((2, 0));
    }
    let mut reader = Reader::<NOTED> {
        predicates,
        words,
        next: 0,
        quantifiers: Vec::new(),
        closed: true,
        unbound: None,
    };
    reader.formula(0, 0, 0)?;
    if reader.next < words.len() {
        return Err((3, reader.next));
    }
    match reader.unbound {
        Some(place) => Err((7, place)),
        None => Ok(reader.quantifiers),
    }
}

/// Goes through the words from front to back, and notes the quantifiers if it is to.
struct Reader<'a, const NOTED: bool> {
    predicates: &'a [Record],
    words: &'a [i32],
    /// The first word not yet read.
    next: usize,
    quantifiers: Vec<Quantifier>,
    /// Whether all predicates of the restriction so far are complete.
    closed: bool,
    /// Where the mode rule is broken first.
    unbound: Option<usize>,
}

/// An atom's predicate, and its terms as pairs of words.
type Atom<'a> = (usize, &'a [[i32; 2]]);

impl<'a, const NOTED: bool> Reader<'a, NOTED> {
    /// Reads a formula below a node of level `above` and with tag `under`.
    fn formula(&mut self, above: usize, under: i32, scope: usize) -> Result<(), Refused> {
        let place = self.next;
        let tag = self.tag()?;
        match tag {
            0 | 1 => self.plain(above + 1),
            2 | 3 => self.atom(above + 1, scope).map(|_| ()),
            4 | 5 => self.comparison(above + 1, scope).map(|_| ()),
            6 | 7 => {
                for _ in 0..self.join(above + 1)? {
                    self.formula(above + 1, tag, scope)?;
                }
                Ok(())
            }
            8 | 9 => self.quantifier(above + if under == tag - 2 { 1 } else { 2 }, scope),
            _ => Err((3, place)),
        }
    }

    /// Reads a quantifier of a level.
    fn quantifier(&mut self, level: usize, scope: usize) -> Result<(), Refused> {
        let place = self.next;
        let &[_, variables @ 1..=4, tuples @ 0..=i32::MAX, ..] = &self.words[place..] else {
            return Err((3, place));
        };
        let restriction = place + 3 + variables as usize * tuples as usize;
        if restriction > self.words.len() {
            return Err((3, place));
        }
        check_level(place, level)?;
        let inner = bind(place, scope, variables as usize)?;
        let number = self.quantifiers.len();
        if NOTED {
            self.quantifiers.push(Quantifier {
                restriction,
                body: 0,
                next: 0,
                after: 0,
                closed: false,
            });
        }

        self.next = restriction;
        self.closed = true;
        let bound = self.restriction(level, inner, below(scope))?;
        if below(inner) & !bound != 0 {
            self.unbound.get_or_insert(place);
        }
        let closed = self.closed;
        let body = self.next;
        self.formula(level, 0, inner)?;
        if NOTED {
            self.quantifiers[number] = Quantifier {
                restriction,
                body,
                next: self.next,
                after: self.quantifiers.len(),
                closed,
            };
        }
        Ok(())
    }

    /// Reads a restriction below a node of level `above`, with some variables bound. Returns those bound behind it.
    fn restriction(&mut self, above: usize, scope: usize, bound: Variables) -> Result<Variables, Refused> {
        let (place, level) = (self.next, above + 1);
        match self.tag()? {
            0 | 1 => self.plain(level).map(|()| bound),
            tag @ 2..=3 => {
                let (predicate, terms) = self.atom(level, scope)?;
                let [_, inputs, complete] = self.predicates[predicate];
                self.closed &= complete == 1;
                let variables = variables(terms, -1);
                let needed = if tag == 2 {
                    self::variables(terms, inputs)
                } else {
                    variables
                };
                self.need(place, needed, bound);
                Ok(if tag == 2 { bound | variables } else { bound })
            }
            4 | 5 => {
                let terms = self.comparison(level, scope)?;
                self.need(place, variables(terms, -1), bound);
                Ok(bound)
            }
            6 => (0..self.join(level)?).try_fold(bound, |bound, _| self.restriction(level, scope, bound)),
            7 => (0..self.join(level)?).try_fold(Variables::MAX, |common, _| {
                Ok(common & self.restriction(level, scope, bound)?)
            }),
            10 => {
                check_level(place, level)?;
                let inner = bind(place, scope, 1)?;
                self.next += 1;
                let bound = self.restriction(level, inner, bound)?;
                self.need(place, 1 << scope, bound);
                Ok(bound & !(1 << scope))
            }
            _ => Err((3, place)),
        }
    }

    /// The mode rule at a node that needs some variables.
    fn need(&mut self, place: usize, needed: Variables, bound: Variables) {
        if needed & !bound != 0 {
            self.unbound.get_or_insert(place);
        }
    }

    /// The tag of the next node, unless it is missing.
    fn tag(&self) -> Result<i32, Refused> {
        self.words.get(self.next).copied().ok_or((3, self.next))
    }

    /// Reads a plain node.
    fn plain(&mut self, level: usize) -> Result<(), Refused> {
        check_level(self.next, level)?;
        self.next += 1;
        Ok(())
    }

    /// Reads the header of a join and returns the number of children.
    fn join(&mut self, level: usize) -> Result<i32, Refused> {
        let place = self.next;
        match self.words.get(place + 1) {
            Some(&children @ 2..) => {
                check_level(place, level)?;
                self.next += 2;
                Ok(children)
            }
            _ => Err((3, place)),
        }
    }

    /// Reads tag 2 or 3.
    fn atom(&mut self, level: usize, scope: usize) -> Result<Atom<'a>, Refused> {
        let place = self.next;
        let &[_, predicate, n @ 1..=6, ref rest @ ..] = &self.words[place..] else {
            return Err((3, place));
        };
        let terms = self.terms(place, rest, n as usize)?;
        check_level(place, level)?;
        let predicate = predicate as u32 as usize;
        if !matches!(self.predicates.get(predicate), Some(&[arity, ..]) if arity == n) {
            return Err((5, place));
        }
        check_scope(place, terms, scope)?;
        self.next += 3 + 2 * n as usize;
        Ok((predicate, terms))
    }

    /// Reads tag 4 or 5.
    fn comparison(&mut self, level: usize, scope: usize) -> Result<&'a [[i32; 2]], Refused> {
        let place = self.next;
        let rest = self.words.get(place + 2..).unwrap_or(&[]);
        let terms = self.terms(place, rest, 2)?;
        check_level(place, level)?;
        check_scope(place, terms, scope)?;
        self.next += 6;
        Ok(terms)
    }

    /// So many terms at the front of some words, each of kind 0 or 1.
    fn terms(&self, place: usize, words: &'a [i32], n: usize) -> Result<&'a [[i32; 2]], Refused> {
        let terms = words.as_chunks().0.get(..n).ok_or((3, place))?;
        let kinds = terms.iter().fold(0, |kinds, [kind, _]| kinds | kind);
        if kinds & !1 != 0 {
            return Err((3, place));
        }
        Ok(terms)
    }
}

/// Question 4.
fn check_level(place: usize, level: usize) -> Result<(), Refused> {
    if level > MOST_LEVELS {
        return Err((4, place));
    }
    Ok(())
}

/// Question 6 at an atom. Read without a sign, a negative variable is too great.
fn check_scope(place: usize, terms: &[[i32; 2]], scope: usize) -> Result<(), Refused> {
    let outside = |[kind, number]: &[i32; 2]| *kind == 1 && *number as u32 >= scope as u32;
    if terms.iter().fold(false, |any, term| any | outside(term)) {
        return Err((6, place));
    }
    Ok(())
}

/// Question 6 at a binder: the number of variables in scope below it.
fn bind(place: usize, scope: usize, variables: usize) -> Result<usize, Refused> {
    let inner = scope + variables;
    if inner > MOST_VARIABLES {
        return Err((6, place));
    }
    Ok(inner)
}

/// The variables below a number.
pub fn below(scope: usize) -> Variables {
    (1 << scope) - 1
}

/// The variables among the terms at the positions of a mask.
pub fn variables(terms: &[[i32; 2]], mask: i32) -> Variables {
    terms.iter().enumerate().fold(0, |set, (position, [kind, number])| {
        let here = (kind & mask >> position & 1) as Variables;
        set | here << (number & 15)
    })
}
