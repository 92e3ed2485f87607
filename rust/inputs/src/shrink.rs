//! Shrinking: a smaller input on which the same thing still goes wrong.

use std::ops::Range;

/// Above this length only the cheaper edits are tried.
const LONG: usize = 2_000;

/// Up to this length edits at two places are tried as well.
const SHORT: usize = 150;

/// So many words are tried in all, so that a long input that has to be long does not take hours.
const TRIED: usize = 1 << 29;

/// Makes the parts of an input smaller, as long as `fails` stays true: drops words, puts smaller nodes for nodes, sets
/// words to 0.
pub fn shrink(parts: Vec<Vec<i32>>, fails: impl Fn(&[Vec<i32>]) -> bool) -> Vec<Vec<i32>> {
    let mut shrinker = Shrinker {
        parts,
        part: 0,
        fails,
        left: TRIED,
    };
    loop {
        let mut progress = false;
        for part in 0..shrinker.parts.len() {
            shrinker.part = part;
            progress |= shrinker.simplify_nodes();
            progress |= shrinker.drop_runs();
            progress |= shrinker.drop_at_two_places();
            progress |= shrinker.make_words_smaller();
        }
        if !progress {
            return shrinker.parts;
        }
    }
}

struct Shrinker<F> {
    parts: Vec<Vec<i32>>,
    /// The part that is worked on.
    part: usize,
    fails: F,
    /// The words that may still be tried.
    left: usize,
}

impl<F: Fn(&[Vec<i32>]) -> bool> Shrinker<F> {
    fn words(&self) -> &[i32] {
        &self.parts[self.part]
    }

    /// Keeps other words for the part if it still fails with them.
    fn keep(&mut self, words: Vec<i32>) -> bool {
        let before = std::mem::replace(&mut self.parts[self.part], words);
        let tried = self.parts.iter().map(Vec::len).sum();
        let keep = self.left > 0 && (self.fails)(&self.parts);
        self.left = self.left.saturating_sub(tried);
        if !keep {
            self.parts[self.part] = before;
        }
        keep
    }

    /// Tries to put other words for a run of words.
    fn replace(&mut self, from: usize, run: usize, by: &[i32]) -> bool {
        if self.left == 0 {
            return false;
        }
        let (front, rest) = self.words().split_at(from);
        let words = [front, by, &rest[run..]].concat();
        self.keep(words)
    }

    /// Tries to put a plain node or a child for a node, and to drop children of joins.
    fn simplify_nodes(&mut self) -> bool {
        let mut progress = false;
        let mut from = 0;
        while from < self.words().len() {
            if self.simplify_node(from) {
                progress = true;
            } else {
                from += 1;
            }
        }
        progress
    }

    fn simplify_node(&mut self, from: usize) -> bool {
        let Some(end) = node_end(self.words(), from).filter(|end| end - from > 1) else {
            return false;
        };
        let run = end - from;
        if self.replace(from, run, &[1]) || self.replace(from, run, &[0]) {
            return true;
        }
        let node = self.words()[from..end].to_vec();
        let children = children(&node);
        if children
            .iter()
            .any(|child| self.replace(from, run, &node[child.clone()]))
        {
            return true;
        }
        matches!(node[0], 6 | 7)
            && node[1] > 2
            && children.into_iter().any(|child| {
                let mut fewer = node.clone();
                fewer.drain(child);
                fewer[1] -= 1;
                self.replace(from, run, &fewer)
            })
    }

    /// Tries to drop each run of words, long ones first, or to put a plain node for it.
    fn drop_runs(&mut self) -> bool {
        let mut progress = false;
        let mut run = self.words().len();
        while run > 0 {
            let by_steps = run > 32 || self.words().len() > LONG;
            let mut from = 0;
            while from + run <= self.words().len() {
                let smaller = self.replace(from, run, &[])
                    || (run > 1 && (self.replace(from, run, &[1]) || self.replace(from, run, &[0])));
                progress |= smaller;
                if !smaller {
                    from += if by_steps { run } else { 1 };
                }
            }
            run = if by_steps { run / 2 } else { run - 1 };
        }
        progress
    }

    /// Tries to drop a few words, and another one behind them or 1 from a count before them.
    fn drop_at_two_places(&mut self) -> bool {
        let mut progress = false;
        let mut from = 0;
        while from < self.words().len() && self.words().len() <= SHORT {
            let smaller = (1..=9).any(|run| self.drop_with_another(from, run));
            progress |= smaller;
            if !smaller {
                from += 1;
            }
        }
        progress
    }

    fn drop_with_another(&mut self, from: usize, run: usize) -> bool {
        if from + run > self.words().len() {
            return false;
        }
        let mut words = self.words().to_vec();
        words.drain(from..from + run);
        for place in 0..words.len() {
            let mut words = words.clone();
            if place >= from {
                words.remove(place);
            } else if (2..100).contains(&words[place]) {
                words[place] -= 1;
            } else {
                continue;
            }
            if self.keep(words) {
                return true;
            }
        }
        false
    }

    /// Tries to set each word to 0, or else nearer to it.
    fn make_words_smaller(&mut self) -> bool {
        let mut progress = false;
        for place in 0..self.words().len() {
            let word = self.words()[place];
            let nearer = [0, 1, word / 2]
                .into_iter()
                .filter(|nearer| nearer.unsigned_abs() < word.unsigned_abs());
            progress |= nearer.into_iter().any(|nearer| self.replace(place, 1, &[nearer]));
        }
        progress
    }
}

/// The number of a node's own words and of its children, if its tag and its counts look good.
pub(crate) fn head(words: &[i32]) -> Option<(usize, usize)> {
    let count = |place: usize| words.get(place).and_then(|word| usize::try_from(*word).ok());
    match *words.first()? {
        0 | 1 => Some((1, 0)),
        2 | 3 => Some((3 + 2 * count(2)?, 0)),
        4 | 5 => Some((6, 0)),
        6 | 7 => Some((2, count(1)?)),
        8 | 9 => Some((3 + count(1)? * count(2)?, 2)),
        10 => Some((1, 1)),
        _ => None,
    }
}

/// Where the node that begins at `from` ends, if it does.
fn node_end(words: &[i32], from: usize) -> Option<usize> {
    let mut end = from;
    let mut missing = 1;
    while missing > 0 {
        let (own, children) = head(words.get(end..)?)?;
        end += own;
        missing += children;
        missing -= 1;
    }
    (end <= words.len()).then_some(end)
}

/// The children of a whole node.
fn children(node: &[i32]) -> Vec<Range<usize>> {
    let (mut from, count) = head(node).unwrap_or((0, 0));
    let mut children = Vec::new();
    for _ in 0..count {
        let Some(end) = node_end(node, from) else { break };
        children.push(from..end);
        from = end;
    }
    children
}

#[cfg(test)]
mod tests {
    use std::cell::Cell;

    use super::*;

    #[test]
    fn finds_the_smallest_input() {
        let parts = vec![vec![5, 4, 3, 2, 1], vec![9; 40]];
        let fails = |parts: &[Vec<i32>]| parts[0].contains(&3) && parts[1].len() >= 3;
        assert_eq!(shrink(parts, fails), [vec![3], vec![0; 3]]);
    }

    #[test]
    fn puts_small_nodes_for_large_ones() {
        // A tag 5 somewhere in a well-formed policy.
        let quantifier = [8, 1, 2, 3, 3, 2, 0, 1, 1, 0, 6, 3, 1, 5, 7, 0, 1, 0, 2, 7, 2, 1, 0];
        let policy = [&[6, 2, 7, 2, 1][..], &quantifier, &quantifier].concat();
        let fails = |parts: &[Vec<i32>]| {
            let words = &parts[0];
            node_end(words, 0) == Some(words.len()) && words.contains(&5)
        };
        let parts = vec![policy];
        assert!(fails(&parts));
        assert_eq!(shrink(parts, fails), [vec![5, 0, 0, 0, 0, 0]]);
    }

    #[test]
    fn ends_if_the_input_has_to_be_long() {
        let long = vec![vec![1; 100_000], vec![7; 3]];
        let tried = Cell::new(0);
        let fails = |parts: &[Vec<i32>]| {
            tried.set(tried.get() + parts[0].len());
            parts[0].len() == 100_000
        };
        assert_eq!(shrink(long, fails)[0].len(), 100_000);
        assert!(tried.get() < TRIED + 200_000);
    }

    #[test]
    fn drops_at_two_places() {
        // A count, so many words, and a last word that must stay.
        let parts = vec![vec![4, 8, 8, 8, 8, 7]];
        let fails = |parts: &[Vec<i32>]| {
            let [count, ref words @ .., 7] = parts[0][..] else {
                return false;
            };
            count as usize == words.len() && count > 0
        };
        assert_eq!(shrink(parts, fails), [vec![1, 0, 7]]);
    }
}
