//! The join rule in the words of the residual.
//!
//! A join keeps two words free for its header. A join under one of the same kind has no header: its parts are parts of
//! the upper one at once. So words are moved only where a join of one part is left.

/// The words of a join's header.
const HEADER: usize = 2;

/// So many words may be written beyond the room: at each level a header that is later dropped, and that of a part which
/// is taken into the join above.
const SLACK: usize = 64 * 2 * HEADER + HEADER;

/// A join whose children are being reduced.
pub struct Join {
    /// All of, rather than any of.
    pub all: bool,
    /// Where its header stands.
    start: usize,
    parts: usize,
    /// Whether a child decides it.
    decided: bool,
    /// Whether its parts don't fit, in which case they are not all there.
    long: bool,
    /// Whether its residual is not needed. The places are counted all the same.
    idle: bool,
}

impl Join {
    /// Takes in a plain child.
    pub fn plain(&mut self, value: bool) {
        self.decided |= value != self.all;
    }

    /// Whether no more parts have to be written.
    pub fn is_idle(&self) -> bool {
        self.idle || self.decided
    }

    fn tag(&self) -> i32 {
        if self.all {
            6
        } else {
            7
        }
    }
}

/// The words of the residual so far.
pub struct Output {
    pub words: Vec<i32>,
    /// The greatest length of `words`.
    most: usize,
}

impl Output {
    /// No word yet, and room for so many.
    pub fn new(room: usize) -> Self {
        Output {
            words: Vec::with_capacity(room + SLACK),
            most: room + SLACK,
        }
    }

    /// Whether so many words of one more part may be written.
    pub fn has_room(&mut self, words: usize, join: &mut Join) -> bool {
        join.long |= self.words.len() + words > self.most;
        join.parts += 1;
        !join.long
    }

    /// Begins a join.
    pub fn open(&mut self, all: bool, idle: bool) -> Join {
        let start = self.words.len();
        self.words.extend_from_slice(&[0; HEADER]);
        Join {
            all,
            start,
            parts: 0,
            decided: false,
            long: false,
            idle,
        }
    }

    /// Ends a join and adds it to the one above, which is of the other kind.
    pub fn close(&mut self, join: Join, above: &mut Join) {
        let start = join.start;
        if join.is_idle() || join.long || above.long || join.parts == 0 {
            self.words.truncate(start);
            if !join.is_idle() {
                above.long |= join.long;
                above.decided |= join.parts == 0 && !join.long;
            }
        } else if join.parts > 1 {
            self.put_header(&join);
            above.parts += 1;
        } else if self.words[start + HEADER] == above.tag() {
            above.parts += self.words[start + HEADER + 1] as usize;
            self.remove(start, 2 * HEADER);
        } else {
            above.parts += 1;
            self.remove(start, HEADER);
        }
    }

    fn put_header(&mut self, join: &Join) {
        self.words[join.start] = join.tag();
        self.words[join.start + 1] = join.parts as i32;
    }

    /// Takes words out.
    fn remove(&mut self, start: usize, words: usize) {
        self.words.copy_within(start + words.., start);
        self.words.truncate(self.words.len() - words);
    }

    /// The words of the residual, `None` if there is certainly no room. The policy is the only child of the join.
    pub fn finish(&mut self, root: &Join) -> Option<Vec<i32>> {
        if root.decided || root.parts == 0 && !root.long {
            return Some(vec![i32::from(!root.decided)]);
        }
        if root.long {
            return None;
        }
        if root.parts == 1 {
            self.remove(0, HEADER);
        } else {
            self.put_header(root);
        }
        Some(std::mem::take(&mut self.words))
    }

    /// Copies trees with the outer variables' numbers put in; greater variable numbers fall.
    pub fn put_in(&mut self, words: &[i32], numbers: &[i32]) {
        if numbers.is_empty() {
            return self.words.extend_from_slice(words);
        }
        let mut rest = words;
        while let Some(tag) = rest.first() {
            // The words in front of the terms, and the terms' words.
            let (front, terms) = match tag {
                2 | 3 => (3, 2 * rest[2] as usize),
                4 | 5 => (2, 4),
                6 | 7 => (2, 0),
                8 | 9 => (3 + (rest[1] * rest[2]) as usize, 0),
                _ => (1, 0),
            };
            self.words.extend_from_slice(&rest[..front]);
            for [kind, value] in rest[front..front + terms].as_chunks().0 {
                let number = if *kind == 1 { numbers.get(*value as usize) } else { None };
                self.words.extend_from_slice(&match number {
                    Some(number) => [0, *number],
                    None => [*kind, value - kind * numbers.len() as i32],
                });
            }
            rest = &rest[front + terms..];
        }
    }
}
