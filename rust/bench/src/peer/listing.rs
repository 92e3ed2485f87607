//! Listing: the environments at which a restriction is true, in places of the lent scratch.

use super::log::{Index, Row};
use super::policy::{variables, Variables, MOST_VARIABLES};

/// The words of a place: the numbers of the variables and, last, the set of the bound ones.
pub const WORDS: usize = MOST_VARIABLES + 1;

/// An environment.
pub type Place = [i32; WORDS];

/// Environments in places one behind the other.
#[derive(Clone, Copy)]
pub struct List {
    /// The first place.
    pub from: usize,
    /// The place behind the last.
    pub to: usize,
    /// Whether nobody else reads it: it may be overwritten, and the places behind it are free.
    pub own: bool,
}

/// The places, and how many may still be counted.
pub struct Lists<'a> {
    words: &'a [i32],
    index: &'a Index<'a>,
    /// The places of scratch.
    pub places: &'a mut [Place],
    /// How many more list entries may be counted. As every entry is counted, the places never run out before.
    pub left: usize,
}

/// The atom of a predicate at an environment that binds its terms.
pub fn ground(predicate: i32, terms: &[[i32; 2]], numbers: &[i32]) -> Row {
    let mut atom = [0; 8];
    atom[0] = predicate;
    for (argument, term) in atom[2..].iter_mut().zip(terms) {
        *argument = number(term, numbers);
    }
    atom
}

/// The number of a term at an environment that binds it.
pub fn number([kind, value]: &[i32; 2], numbers: &[i32]) -> i32 {
    match kind {
        0 => *value,
        _ => numbers[*value as usize],
    }
}

/// Whether tag 4 holds of its four words behind the tag and the offset.
pub fn at_most(offset: i32, terms: &[i32], numbers: &[i32]) -> bool {
    let terms = terms.as_chunks().0;
    i64::from(number(&terms[0], numbers)) + i64::from(offset) <= i64::from(number(&terms[1], numbers))
}

impl<'a> Lists<'a> {
    /// No list yet.
    pub fn new(words: &'a [i32], index: &'a Index<'a>, places: &'a mut [Place]) -> Self {
        Lists {
            words,
            index,
            places,
            left: 0,
        }
    }

    /// The list that the restriction at an index makes from the list it is given, and the index behind it; `None` if
    /// there are too many entries. The places from `top` on are free.
    pub fn list(&mut self, at: usize, given: List, top: usize, scope: usize) -> Option<(List, usize)> {
        match self.words[at] {
            0 => {
                let none = List {
                    to: given.from,
                    ..given
                };
                Some((none, at + 1))
            }
            1 => self.count(given).map(|list| (list, at + 1)),
            2 => self.matches(at, given, top),
            tag @ 3..=5 => self.keep(tag, at, given, top),
            6 => self.all_of(at, given, top, scope),
            7 => self.any_of(at, given, top, scope),
            _ => {
                let (list, next) = self.list(at + 1, given, top, scope + 1)?;
                for place in &mut self.places[list.from..list.to] {
                    place[MOST_VARIABLES] &= !(1 << scope);
                }
                Some((self.count(list)?, next))
            }
        }
    }

    /// Counts the entries of one more list.
    fn count(&mut self, list: List) -> Option<List> {
        self.left = self.left.checked_sub(list.to - list.from)?;
        Some(list)
    }

    fn all_of(&mut self, at: usize, given: List, top: usize, scope: usize) -> Option<(List, usize)> {
        let (mut list, mut next) = (given, at + 2);
        for _ in 0..self.words[at + 1] {
            let top = if list.own { list.to } else { top };
            (list, next) = self.list(next, list, top, scope)?;
        }
        Some((self.count(list)?, next))
    }

    fn any_of(&mut self, at: usize, given: List, top: usize, scope: usize) -> Option<(List, usize)> {
        let given = List { own: false, ..given };
        let (mut to, mut next) = (top, at + 2);
        for _ in 0..self.words[at + 1] {
            let (list, behind) = self.list(next, given, to, scope)?;
            if list.from != to {
                self.places.copy_within(list.from..list.to, to);
            }
            to += list.to - list.from;
            next = behind;
        }
        let joined = List {
            from: top,
            to,
            own: true,
        };
        Some((self.count(joined)?, next))
    }

    /// Tag 3, 4 or 5 keeps the environments at which it is true.
    fn keep(&mut self, tag: i32, at: usize, given: List, top: usize) -> Option<(List, usize)> {
        let from = if given.own { given.from } else { top };
        let mut to = from;
        let n = self.words[at + 2] as usize;
        let next = if tag == 3 { at + 3 + 2 * n } else { at + 6 };
        let words = &self.words[at + 1..next];
        for source in given.from..given.to {
            let environment = &self.places[source];
            let kept = match tag {
                3 => {
                    self.index
                        .truth(&ground(words[0], words[2..].as_chunks().0, environment))
                        == Some(false)
                }
                _ => at_most(words[0], &words[1..], environment) == (tag == 4),
            };
            if kept {
                self.left = self.left.checked_sub(1)?;
                if to != source {
                    self.places[to] = self.places[source];
                }
                to += 1;
            }
        }
        Some((List { from, to, own: true }, next))
    }

    /// Tag 2 takes each environment in turn and the true rows that fit it.
    fn matches(&mut self, at: usize, given: List, top: usize) -> Option<(List, usize)> {
        let [_, predicate, n] = self.words[at..at + 3] else {
            return None;
        };
        let next = at + 3 + 2 * n as usize;
        let terms = self.words[at + 3..next].as_chunks().0;
        let variables = variables(terms, -1);
        let index = self.index;
        let mut to = top;
        for source in given.from..given.to {
            let environment = self.places[source];
            let free = variables & !(environment[MOST_VARIABLES] as Variables);
            if free == 0 {
                if index.truth(&ground(predicate, terms, &environment)) == Some(true) {
                    self.left = self.left.checked_sub(1)?;
                    self.places[to] = environment;
                    to += 1;
                }
                continue;
            }
            let pattern = Pattern::new(terms, &environment, free);
            let mut rows = index.true_rows(predicate as usize);
            while let Some(row) = pattern.next(&mut rows) {
                self.left = self.left.checked_sub(1)?;
                let place = &mut self.places[to];
                *place = environment;
                place[MOST_VARIABLES] |= free as i32;
                pattern.bind(row, place);
                to += 1;
            }
        }
        let list = List {
            from: top,
            to,
            own: true,
        };
        Some((list, next))
    }
}

/// What the rows of a predicate have to look like to fit an atom at an environment.
struct Pattern {
    /// The numbers at the positions that are constants or bound.
    numbers: Row,
    /// All bits at these positions, none elsewhere.
    mask: Row,
    /// The position and the variable of each free term.
    free: [(u8, u8); 6],
    /// How many free terms there are.
    count: usize,
    /// Whether some free variable stands at two positions.
    repeated: bool,
}

impl Pattern {
    /// The pattern of some terms, of which some variables are free.
    fn new(terms: &[[i32; 2]], environment: &Place, free: Variables) -> Self {
        let mut pattern = Pattern {
            numbers: [0; 8],
            mask: [0; 8],
            free: [(0, 0); 6],
            count: 0,
            repeated: false,
        };
        for (position, term) in (2..8).zip(terms) {
            let [kind, value] = *term;
            if kind == 1 && free >> value & 1 == 1 {
                pattern.free[pattern.count] = (position as u8, value as u8);
                pattern.count += 1;
            } else {
                pattern.numbers[position] = number(term, environment);
                pattern.mask[position] = -1;
            }
        }
        pattern.repeated = pattern.count > free.count_ones() as usize;
        pattern
    }

    /// The free positions with their variables.
    fn free(&self) -> impl Iterator<Item = (usize, usize)> + '_ {
        let free = self.free[..self.count].iter();
        free.map(|(position, variable)| (usize::from(position % 8), usize::from(variable % 16)))
    }

    /// The next row that fits. In a function of its own the loop keeps the pattern in vector registers; inlined, it was
    /// compiled word by word in some builds, and the norms over 2,048 rows then took 1.7 times as long.
    #[inline(never)]
    fn next<'r>(&self, rows: &mut impl Iterator<Item = &'r Row>) -> Option<&'r Row> {
        rows.find(|row| self.fits(row))
    }

    /// Whether a row fits. All positions are looked at, with no branch.
    #[inline(always)]
    fn fits(&self, row: &Row) -> bool {
        let unequal = (0..8).fold(0, |unequal, i| unequal | (row[i] ^ self.numbers[i]) & self.mask[i]);
        unequal == 0 && (!self.repeated || self.agrees(row))
    }

    /// Whether a row has equal arguments where a free variable is repeated.
    #[cold]
    #[inline(never)]
    fn agrees(&self, row: &Row) -> bool {
        let mut place = [0; WORDS];
        self.bind(row, &mut place);
        let mut free = self.free();
        free.all(|(position, variable)| place[variable] == row[position])
    }

    /// Binds the free variables to a row's arguments.
    fn bind(&self, row: &Row, place: &mut Place) {
        for (position, variable) in self.free() {
            place[variable] = row[position];
        }
    }
}
