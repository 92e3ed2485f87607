//! The library's keys: how evenly the rows of a log fall on them, and a log in which all rows fall on one.
//!
//! The library keeps the rows of a log in a hash table and compares a row with the earlier ones of the same key.

/// The words of one row.
const ROW: usize = 8;

/// The number of keys.
pub const KEYS: usize = 16_384;

/// What the predicate and the six arguments are multiplied by.
const FACTORS: [u64; 7] = [
    331_804_471,
    442_291_847,
    349_421_991,
    480_404_705,
    294_359_035,
    307_324_391,
    318_971_139,
];

/// The library's key of a good row's atom. It only serves to make the worst case and to count: if the library takes
/// another key, the counts here and the worst case are no longer the library's.
fn key(row: &[i32; ROW]) -> usize {
    let [predicate, _, arguments @ ..] = row;
    let predicate = u64::from(predicate.unsigned_abs()) % 256;
    let arguments = arguments.map(|argument| (i64::from(argument) + (1 << 31)) as u64);
    let products = [predicate].into_iter().chain(arguments).zip(FACTORS);
    let sum: u64 = products.map(|(word, factor)| word * factor).sum();
    (sum >> 15) as usize % KEYS
}

/// How the rows of logs fall on the keys.
pub struct Chains {
    /// The greatest number of rows of a log with one key.
    pub longest: usize,
    /// The number of earlier rows of the log with a row's key, on average.
    pub earlier: f64,
}

impl Chains {
    /// Counts the rows of each key, for each log.
    pub fn of(logs: &[&[i32]]) -> Self {
        let (mut rows, mut longest, mut earlier) = (0, 0, 0);
        for log in logs {
            let mut chains = vec![0; KEYS];
            for row in log.as_chunks().0 {
                let chain = &mut chains[key(row)];
                earlier += *chain;
                *chain += 1;
                longest = longest.max(*chain);
                rows += 1;
            }
        }
        Chains {
            longest,
            earlier: earlier as f64 / f64::from(rows),
        }
    }
}

/// So many rows of a predicate with six arguments that share a key. They differ in the last argument only, so that two
/// of them have to be compared to the end.
pub fn one_key_log(predicate: i32, rows: usize) -> Vec<i32> {
    let row = |last| [predicate, 1, 7, 7, 7, 7, 7, last];
    let chosen = key(&row(0));
    (0..)
        .map(row)
        .filter(|row| key(row) == chosen)
        .take(rows)
        .flatten()
        .collect()
}
