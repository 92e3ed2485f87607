//! The reduction, in one pass over the words of an accepted policy.

use super::instances::Chooser;
use super::joining::{Join, Output};
use super::listing::{at_most, ground, List, Lists, WORDS};
use super::log::Index;
use super::policy::{below, Quantifier, MOST_VARIABLES};

/// An index into the policy's words, and the number of the next quantifier there.
#[derive(Clone, Copy)]
struct Cursor {
    at: usize,
    quantifier: usize,
}

/// What holds around a formula.
#[derive(Clone, Copy)]
struct Around {
    /// The number of outer variables.
    scope: usize,
    /// The places counted by the quantifiers above.
    used: usize,
    /// The first free place.
    top: usize,
}

/// Walks over a policy.
pub struct Walk<'a> {
    words: &'a [i32],
    quantifiers: &'a [Quantifier],
    index: &'a Index<'a>,
    lists: Lists<'a>,
    chooser: Chooser,
    /// The numbers of the outer variables.
    numbers: [i32; MOST_VARIABLES],
    out: Output,
}

impl<'a> Walk<'a> {
    /// A walk over an accepted policy, with room for so many words.
    pub fn new(
        words: &'a [i32],
        quantifiers: &'a [Quantifier],
        index: &'a Index<'a>,
        lists: Lists<'a>,
        room: usize,
    ) -> Self {
        Walk {
            words,
            quantifiers,
            index,
            lists,
            chooser: Chooser::default(),
            numbers: [0; MOST_VARIABLES],
            out: Output::new(room),
        }
    }

    /// The words of the residual: `None` if there are too few places, `Some(None)` if there is certainly no room. The
    /// policy is the only child of an all-of.
    pub fn policy(&mut self) -> Option<Option<Vec<i32>>> {
        let mut root = self.out.open(true, false);
        let start = Cursor { at: 0, quantifier: 0 };
        let around = Around {
            scope: 0,
            used: 0,
            top: 0,
        };
        self.formula(start, around, &mut root)?;
        Some(self.out.finish(&root))
    }

    /// Adds the reduction of a formula to a join and returns the cursor behind it; `None` if there are too few places.
    fn formula(&mut self, cursor: Cursor, around: Around, join: &mut Join) -> Option<Cursor> {
        let Cursor { at, quantifier } = cursor;
        let behind = |own: usize| {
            Some(Cursor {
                at: at + own,
                quantifier,
            })
        };
        let tag = self.words[at];
        match tag {
            0 | 1 => {
                join.plain(tag == 1);
                behind(1)
            }
            2 | 3 => {
                let own = 3 + 2 * self.words[at + 2] as usize;
                if !join.is_idle() {
                    self.atom(&self.words[at..at + own], join);
                }
                behind(own)
            }
            4 | 5 => {
                let words = &self.words[at + 1..at + 6];
                join.plain(at_most(words[0], &words[1..], &self.numbers) == (tag == 4));
                behind(6)
            }
            6 | 7 if join.all == (tag == 6) => self.children(cursor, around, join),
            6 | 7 => {
                let mut inner = self.out.open(!join.all, join.is_idle());
                let cursor = self.children(cursor, around, &mut inner)?;
                self.out.close(inner, join);
                Some(cursor)
            }
            _ => {
                if join.all == (tag == 8) {
                    self.quantifier(cursor, around, join)?;
                } else {
                    let mut inner = self.out.open(!join.all, join.is_idle());
                    self.quantifier(cursor, around, &mut inner)?;
                    self.out.close(inner, join);
                }
                let Quantifier { next, after, .. } = self.quantifiers[quantifier];
                Some(Cursor {
                    at: next,
                    quantifier: after,
                })
            }
        }
    }

    /// Adds the children of a join.
    fn children(&mut self, cursor: Cursor, around: Around, join: &mut Join) -> Option<Cursor> {
        let Cursor { at, quantifier } = cursor;
        let mut cursor = Cursor { at: at + 2, quantifier };
        for _ in 0..self.words[at + 1] {
            cursor = self.formula(cursor, around, join)?;
        }
        Some(cursor)
    }

    /// Adds a ground atom.
    fn atom(&mut self, words: &[i32], join: &mut Join) {
        let terms = words[3..].as_chunks().0;
        let atom = ground(words[1], terms, &self.numbers);
        if let Some(truth) = self.index.truth(&atom) {
            return join.plain(truth == (words[0] == 2));
        }
        if self.out.has_room(words.len(), join) {
            self.out.words.extend_from_slice(&words[..3]);
            for argument in &atom[2..2 + terms.len()] {
                self.out.words.extend_from_slice(&[0, *argument]);
            }
        }
    }

    /// Adds the bodies of a quantifier at its instances and what remains of it.
    fn quantifier(&mut self, cursor: Cursor, around: Around, join: &mut Join) -> Option<()> {
        let Around { scope, used, top } = around;
        let quantifier = self.quantifiers[cursor.quantifier];
        let variables = self.words[cursor.at + 1] as usize;
        let places = self.lists.places.len();
        self.lists.left = places.checked_sub(used + 1)?;
        let outer = &mut self.lists.places[top];
        outer[..MOST_VARIABLES].copy_from_slice(&self.numbers);
        outer[WORDS - 1] = below(scope) as i32;
        let empty = List {
            from: top,
            to: top + 1,
            own: true,
        };
        let inner = scope + variables;
        let (list, _) = self.lists.list(quantifier.restriction, empty, top + 1, inner)?;
        let excluded = &self.words[cursor.at + 3..quantifier.restriction];
        let count = self.chooser.choose(self.lists.places, list, scope, variables, excluded);
        let instances = list.from..list.from + count;

        let below = Around {
            scope: inner,
            used: places - self.lists.left,
            top: instances.end,
        };
        let body = Cursor {
            at: quantifier.body,
            quantifier: cursor.quantifier + 1,
        };
        let needs_places = quantifier.after > body.quantifier;
        for instance in instances.clone() {
            if join.is_idle() && !needs_places {
                break;
            }
            let tuple = &self.lists.places[instance][scope..inner];
            self.numbers[scope..inner].copy_from_slice(tuple);
            self.formula(body, below, join)?;
        }
        if !quantifier.closed && !join.is_idle() {
            self.rest(cursor.at, scope, &quantifier, instances, join);
        }
        Some(())
    }

    /// Adds a quantifier with its instances behind the excluded tuples.
    fn rest(
        &mut self,
        at: usize,
        scope: usize,
        quantifier: &Quantifier,
        instances: std::ops::Range<usize>,
        join: &mut Join,
    ) {
        let head = &self.words[at..quantifier.restriction];
        let variables = head[1] as usize;
        let copied = &self.words[quantifier.restriction..quantifier.next];
        if !self
            .out
            .has_room(head.len() + variables * instances.len() + copied.len(), join)
        {
            return;
        }
        let tuples = head[2] + instances.len() as i32;
        self.out.words.extend_from_slice(&[head[0], head[1], tuples]);
        self.out.words.extend_from_slice(&head[3..]);
        for place in &self.lists.places[instances] {
            self.out.words.extend_from_slice(&place[scope..scope + variables]);
        }
        self.out.put_in(copied, &self.numbers[..scope]);
    }
}
