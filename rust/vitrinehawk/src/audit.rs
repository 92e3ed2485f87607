//! A reduction that finds its own room.

use crate::{reduce, Refusal, Refused, MOST_WORDS, PLACE_WORDS, ROW_WORDS};

/// By how much room grows after a refusal.
const GROWTH: usize = 4;

/// Returns the residual of a policy over a log (questions 1 to 12), and takes care of scratch and buffer.
///
/// It reduces with little room first: a place of scratch for each row and one more, and a buffer as long as the policy.
/// As long as the call is refused for want of scratch or buffer, it tries again with four times as much of that one.
/// `most_words` is the most that it lends to scratch, and the most that it lends to the buffer, in words; before it
/// gives up it has tried with exactly so many. More than [`MOST_WORDS`] are never lent to the buffer, which could not
/// use them.
///
/// ```
/// use vitrinehawk::{audit, Refusal};
///
/// let table = [3, 0, 0, 2, 0, 1, 1, 1, 0];
/// let policy = [8, 3, 0, 2, 0, 3, 1, 0, 1, 1, 1, 2, 2, 2, 1, 1, 1];
/// let log = [0, 1, 7, 9, 100, 0, 0, 0];
/// // 34 words of scratch and a buffer of 27 words are needed.
/// assert_eq!(audit(&table, &policy, &log, 34)?.len(), 27);
/// assert_eq!(audit(&table, &policy, &log, 33).unwrap_err().refusal, Refusal::Scratch);
/// # Ok::<(), vitrinehawk::Refused>(())
/// ```
///
/// # Errors
///
/// The first question answered with "no", and where. Question 11 or 12 if the limit is too small; 12 also if the
/// residual has more than [`MOST_WORDS`] words, whatever the limit.
pub fn audit(table: &[i32], policy: &[i32], log: &[i32], most_words: usize) -> Result<Vec<i32>, Refused> {
    let mut scratch = Room::new(PLACE_WORDS * (log.len() / ROW_WORDS + 1), most_words);
    let mut buffer = Room::new(policy.len(), most_words.min(MOST_WORDS));
    loop {
        let refused = match reduce(table, policy, log, &mut scratch.words, &mut buffer.words) {
            Ok(length) => {
                buffer.words.truncate(length);
                return Ok(buffer.words);
            }
            Err(refused) => refused,
        };
        let grown = match refused.refusal {
            Refusal::Scratch => scratch.grow(),
            Refusal::Room => buffer.grow(),
            _ => false,
        };
        if !grown {
            return Err(refused);
        }
    }
}

/// Words to lend, and the most there may be.
struct Room {
    words: Vec<i32>,
    most: usize,
}

impl Room {
    /// About so many words, but no more than `most`.
    fn new(first: usize, most: usize) -> Self {
        let words = vec![0; first.min(most)];
        Room { words, most }
    }

    /// Makes the room larger, unless it is as large as it may be.
    fn grow(&mut self) -> bool {
        let length = self.words.len();
        if length >= self.most {
            return false;
        }
        // Nothing in it is needed any more.
        self.words = Vec::new();
        self.words = vec![0; length.max(1).saturating_mul(GROWTH).min(self.most)];
        true
    }
}

#[cfg(test)]
mod tests {
    use super::*;

    fn lengths(first: usize, most: usize) -> Vec<usize> {
        let mut room = Room::new(first, most);
        let mut lengths = vec![room.words.len()];
        while room.grow() {
            lengths.push(room.words.len());
        }
        lengths
    }

    #[test]
    fn room_grows_up_to_its_limit_exactly() {
        assert_eq!(lengths(17, 1000), [17, 68, 272, 1000]);
        assert_eq!(lengths(17, 272), [17, 68, 272]);
        assert_eq!(lengths(17, 273), [17, 68, 272, 273]);
        assert_eq!(lengths(17, 17), [17]);
        assert_eq!(lengths(17, 3), [3]);
        assert_eq!(lengths(0, 9), [0, 4, 9]);
        assert_eq!(lengths(0, 1), [0, 1]);
        assert_eq!(lengths(5, 0), [0]);
    }
}
