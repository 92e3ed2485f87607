//! The table and the log: no allocation, one hash table on the frame. The rows of an accepted log are then found by atom,
//! and the true ones by predicate.
//!
//! It hashes in its own way, so a log that is bad for the library's keys is not bad for it.

use super::Refused;

/// The words of one predicate: arity, mask of inputs, whether it is complete.
pub type Record = [i32; 3];

/// The words of one row: predicate, truth, six arguments. Those of an atom are the same, whatever stands for the truth.
pub type Row = [i32; 8];

/// The greatest number of predicates.
const MOST_PREDICATES: usize = 256;

/// The greatest number of rows.
pub const MOST_ROWS: usize = 4096;

/// For each arity a mask of the unused arguments, so that no jump depends on the arity.
const UNUSED: [[i32; 6]; 7] = [
    [-1, -1, -1, -1, -1, -1],
    [0, -1, -1, -1, -1, -1],
    [0, 0, -1, -1, -1, -1],
    [0, 0, 0, -1, -1, -1],
    [0, 0, 0, 0, -1, -1],
    [0, 0, 0, 0, 0, -1],
    [0, 0, 0, 0, 0, 0],
];

/// The slots of the hash table, a power of two. At most a quarter of them are ever taken: with half as many, a full log
/// of random atoms took 1.7 times as long.
pub const SLOTS: usize = 4 * MOST_ROWS;

/// Open addressing: a slot is 0 if it is free, else the number of a row and 1.
pub type Slots = [u16; SLOTS];

/// Odd numbers without a pattern, for the predicate and for each pair of arguments.
const FACTORS: [u64; 4] = [
    0x9E37_79B9_7F4A_7C15,
    0xBF58_476D_1CE4_E5B9,
    0x94D0_49BB_1331_11EB,
    0xD6E8_FEB8_6659_FD93,
];

/// Asks questions 1, 8, 9 and 10 and returns the number of rows.
pub fn check_log(table: &[i32], log: &[i32]) -> Result<usize, Refused> {
    let predicates = check_table(table)?;
    Ok(check_rows(predicates, log, &mut [0; SLOTS])?.len())
}

/// Asks question 1 and returns the predicates.
pub fn check_table(table: &[i32]) -> Result<&[Record], Refused> {
    let (predicates, rest) = table.as_chunks();
    if !rest.is_empty() || !(1..=MOST_PREDICATES).contains(&predicates.len()) {
        return Err((1, 0));
    }
    match predicates.iter().position(|record| !good_record(record)) {
        Some(bad) => Err((1, bad)),
        None => Ok(predicates),
    }
}

/// Asks questions 8, 9 and 10, puts the rows into the slots, which are free at first, and returns the rows.
pub fn check_rows<'a>(predicates: &[Record], log: &'a [i32], slots: &mut Slots) -> Result<&'a [Row], Refused> {
    let (rows, rest) = log.as_chunks();
    if !rest.is_empty() || rows.len() > MOST_ROWS {
        return Err((8, 0));
    }
    for (number, row) in rows.iter().enumerate() {
        if !good_row(predicates, row) {
            return Err((9, number));
        }
        let mut slot = first_slot(row);
        while slots[slot] != 0 {
            if same_atom(&rows[usize::from(slots[slot]) - 1], row) {
                return Err((10, number));
            }
            slot = (slot + 1) % SLOTS;
        }
        slots[slot] = number as u16 + 1;
    }
    Ok(rows)
}

fn good_record(record: &Record) -> bool {
    matches!(*record, [arity @ 1..=6, mask, 0..=1] if (0..1 << arity).contains(&mask))
}

/// Whether a row is good by itself. Read without a sign, a negative predicate is too great.
fn good_row(predicates: &[Record], row: &Row) -> bool {
    let [predicate, truth, arguments @ ..] = row;
    let Some(&[arity, ..]) = predicates.get(*predicate as u32 as usize) else {
        return false;
    };
    let masks = UNUSED[arity as usize];
    let unused = arguments
        .iter()
        .zip(masks)
        .fold(0, |all, (word, mask)| all | word & mask);
    matches!(truth, 0..=1) && unused == 0
}

fn same_atom(row: &Row, other: &Row) -> bool {
    row[0] == other[0] && row[2..] == other[2..]
}

/// The slot at which the search for a row's atom begins: the upper bits of a sum of products.
fn first_slot(row: &Row) -> usize {
    let [predicate, _, a, b, c, d, e, f] = row.map(|word| u64::from(word as u32));
    let parts = [predicate, a | b << 32, c | d << 32, e | f << 32];
    let sum = parts
        .iter()
        .zip(FACTORS)
        .fold(0_u64, |sum, (part, factor)| sum.wrapping_add(part.wrapping_mul(factor)));
    (sum >> (u64::BITS - SLOTS.ilog2())) as usize
}

/// The rows of an accepted log, by atom and by predicate.
pub struct Index<'a> {
    predicates: &'a [Record],
    rows: &'a [Row],
    slots: &'a Slots,
    /// The numbers of the true rows, those of a predicate together, in row order.
    order: [u16; MOST_ROWS],
    /// For each predicate the end of its rows in this order; they begin where those of the predicate before it end.
    ends: [u16; MOST_PREDICATES],
}

impl<'a> Index<'a> {
    /// The index of accepted rows, which are in the slots. Counts the true rows of each predicate and deals them out.
    pub fn new(predicates: &'a [Record], rows: &'a [Row], slots: &'a Slots) -> Self {
        let predicate = |row: &Row| row[0] as usize % MOST_PREDICATES;
        let mut ends = [0_u16; MOST_PREDICATES];
        for row in rows {
            ends[predicate(row)] += row[1] as u16;
        }
        let mut start = 0;
        for end in &mut ends {
            (*end, start) = (start, start + *end);
        }
        let mut order = [0; MOST_ROWS];
        for (number, row) in rows.iter().enumerate().filter(|(_, row)| row[1] == 1) {
            let end = &mut ends[predicate(row)];
            order[usize::from(*end) % MOST_ROWS] = number as u16;
            *end += 1;
        }
        Index {
            predicates,
            rows,
            slots,
            order,
            ends,
        }
    }

    /// The true rows of a predicate, in row order.
    pub fn true_rows(&self, predicate: usize) -> impl Iterator<Item = &'a Row> + use<'a, '_> {
        let start = match predicate {
            0 => 0,
            _ => self.ends[predicate - 1],
        };
        let numbers = &self.order[usize::from(start)..usize::from(self.ends[predicate])];
        numbers.iter().map(|number| &self.rows[usize::from(*number)])
    }

    /// Whether an atom is true or false; `None` if it is open.
    pub fn truth(&self, atom: &Row) -> Option<bool> {
        let mut slot = first_slot(atom);
        while self.slots[slot] != 0 {
            let row = &self.rows[usize::from(self.slots[slot]) - 1];
            if same_atom(row, atom) {
                return Some(row[1] == 1);
            }
            slot = (slot + 1) % SLOTS;
        }
        let complete = self.predicates[atom[0] as usize][2] == 1;
        complete.then_some(false)
    }
}

#[cfg(test)]
mod tests {
    use inputs::{damaged_log, damaged_table, full_log, good_log, good_table, Random, FULL_LOG_TABLE};
    use reference::Answer;

    use super::{check_log, same_atom};
    use crate::answer;

    #[test]
    fn answers_as_the_reference_does() {
        let random = &mut Random::new(0x9EE4);
        let mut seen = [0; 11];
        for _ in 0..20_000 {
            let table = good_table(random);
            let log = if random.once_in(4) {
                good_log(random, &table, 40, 5)
            } else {
                damaged_log(random, &table, 40)
            };
            let table = if random.once_in(4) {
                damaged_table(random)
            } else {
                table
            };
            let expected = reference::check_log(&table, &log);
            assert_eq!(answer(check_log(&table, &log)), expected, "{table:?} {log:?}");
            seen[expected.number as usize] += 1;
        }
        for number in [0, 1, 8, 9, 10] {
            assert!(seen[number] > 100, "only {} of {number}", seen[number]);
        }
    }

    #[test]
    fn takes_so_many_rows_and_no_more() {
        let log = full_log(4097);
        let check = |words: &[i32]| answer(check_log(&FULL_LOG_TABLE, words));
        assert_eq!(check(&[]), Answer::accepted(0));
        assert_eq!(check(&log[..8 * 4096]), Answer::accepted(4096));
        assert_eq!(check(&log), Answer::refused(8, 0));
    }

    #[test]
    fn an_atom_is_a_predicate_and_arguments() {
        let row = [2, 1, 3, 4, 5, 6, 7, 8];
        for place in 0..8 {
            let mut other = row;
            other[place] = 0;
            assert_eq!(same_atom(&row, &other), place == 1);
        }
    }
}
