//! A log as comma-separated text.
//!
//! Most records are bare numbers with a line end behind them, and are read by a short path of their own; any other
//! record takes the long one.

use super::log::{check_rows, check_table, Record, Row, MOST_ROWS, SLOTS};
use super::Refused;

/// The most bytes of a row: a predicate of three digits, a truth, six numbers of ten digits and a minus, seven commas
/// and the line end.
const LINE: usize = 3 + 1 + 6 * 11 + 7 + 2;

/// The fewest bytes of a row but the last.
const SHORTEST_LINE: usize = 7;

/// Reads a log from text, writes its words to the front of a buffer (questions 1, 13, 14, 8, 10 and 12) and returns the
/// number of rows.
///
/// Behind the rows the buffer has zeros; if the call is refused, zeros only.
pub fn read_log(table: &[i32], text: &[u8], buffer: &mut [i32]) -> Result<usize, Refused> {
    let rows = rows_of_text(table, text, buffer.len());
    let words = rows.as_deref().unwrap_or(&[]).as_flattened();
    let (front, rest) = buffer.split_at_mut(words.len());
    front.copy_from_slice(words);
    rest.fill(0);
    rows.map(|rows| rows.len())
}

/// The rows that a text stands for, if there is room for their words.
fn rows_of_text(table: &[i32], text: &[u8], room: usize) -> Result<Vec<Row>, Refused> {
    let predicates = check_table(table)?;
    let mut rows = Vec::with_capacity((text.len() / SHORTEST_LINE + 1).min(MOST_ROWS));
    let mut reader = Reader { text, at: 0 };
    let (mut records, mut bad) = (0, None);
    while reader.at < text.len() {
        let row = match reader.plain_row(predicates) {
            None => reader.record(predicates)?,
            row => row,
        };
        match row {
            None => bad = bad.or(Some(records)),
            Some(row) if records < MOST_ROWS => rows.push(row),
            Some(_) => {}
        }
        records += 1;
    }
    if let Some(record) = bad {
        return Err((14, record));
    }
    if records > MOST_ROWS {
        return Err((8, 0));
    }
    let words = rows.as_flattened();
    check_rows(predicates, words, &mut [0; SLOTS])?;
    if words.len() > room {
        return Err((12, 0));
    }
    Ok(rows)
}

/// Goes through the text from front to back.
struct Reader<'a> {
    text: &'a [u8],
    /// The first byte not yet read.
    at: usize,
}

impl Reader<'_> {
    /// Reads a row that is bare numbers and a line end. If the next record is no such row, nothing is read.
    fn plain_row(&mut self, predicates: &[Record]) -> Option<Row> {
        let mut row = [0; 8];
        let (predicate, rest) = front_number(&self.text[self.at..])?;
        let (truth, mut rest) = front_number(rest.strip_prefix(b",")?)?;
        (row[0], row[1]) = (predicate, truth);
        let [arity, ..] = predicates.get(predicate as u32 as usize)?;
        for argument in &mut row[2..2 + *arity as usize] {
            (*argument, rest) = front_number(rest.strip_prefix(b",")?)?;
        }
        let rest = rest.strip_prefix(b"\r\n")?;
        if !matches!(truth, 0..=1) {
            return None;
        }
        self.at = self.text.len() - rest.len();
        Some(row)
    }

    /// Reads any record and its line end. `None` if it is not a row.
    fn record(&mut self, predicates: &[Record]) -> Result<Option<Row>, Refused> {
        let mut row = [0; 8];
        let (mut fields, mut numbers) = (0, true);
        loop {
            let number = match self.text.get(self.at) {
                Some(b'"') => self.quoted()?,
                _ => self.bare(),
            };
            match (row.get_mut(fields), number) {
                (Some(word), Some(number)) => *word = number,
                _ => numbers = false,
            }
            fields += 1;
            match &self.text[self.at..] {
                [b',', ..] => self.at += 1,
                [b'\r', b'\n', ..] => {
                    self.at += 2;
                    break;
                }
                [] => break,
                [b'\r', ..] => return Err((13, self.at + 1)),
                _ => return Err((13, self.at)),
            }
        }
        let arity = predicates
            .get(row[0] as u32 as usize)
            .map(|[arity, ..]| *arity as usize);
        let good = numbers && matches!(row[1], 0..=1) && arity.is_some_and(|arity| fields == 2 + arity);
        Ok(good.then_some(row))
    }

    /// Reads a bare field. `None` if it is not a number.
    fn bare(&mut self) -> Option<i32> {
        let rest = &self.text[self.at..];
        let ends = |byte: &u8| matches!(byte, b'"' | b',') || !matches!(byte, b' '..=b'~');
        let content = &rest[..rest.iter().position(ends).unwrap_or(rest.len())];
        self.at += content.len();
        number(content)
    }

    /// Reads a quoted field. `None` if it is not a number; with a doubled quote in it, it is not.
    fn quoted(&mut self) -> Result<Option<i32>, Refused> {
        self.at += 1;
        let from = self.at;
        loop {
            match &self.text[self.at..] {
                [b'"', b'"', ..] => self.at += 2,
                [b'"', ..] => {
                    let content = &self.text[from..self.at];
                    self.at += 1;
                    return Ok(number(content));
                }
                [b' '..=b'~' | b'\r' | b'\n', ..] => self.at += 1,
                _ => return Err((13, self.at)),
            }
        }
    }
}

/// The number that a content is.
fn number(content: &[u8]) -> Option<i32> {
    match front_number(content) {
        Some((number, [])) => Some(number),
        _ => None,
    }
}

/// The number in front, all its digits, and what follows.
fn front_number(text: &[u8]) -> Option<(i32, &[u8])> {
    let (minus, digits) = match text {
        [b'-', digits @ ..] => (true, digits),
        digits => (false, digits),
    };
    let (mut number, mut length) = (0_i64, 0);
    while let Some(digit @ b'0'..=b'9') = digits.get(length) {
        if length == 10 {
            return None;
        }
        number = 10 * number + i64::from(digit - b'0');
        length += 1;
    }
    let zero_in_front = digits.first() == Some(&b'0') && (minus || length > 1);
    if length == 0 || zero_in_front {
        return None;
    }
    let number = if minus { -number } else { number };
    Some((i32::try_from(number).ok()?, &digits[length..]))
}

/// Writes a log as text to the front of a buffer (questions 1, 8 to 10 and 12) and returns the number of bytes.
///
/// Behind the text the buffer has zeros; if the call is refused, zeros only.
pub fn write_log(table: &[i32], log: &[i32], buffer: &mut [u8]) -> Result<usize, Refused> {
    let length = write_rows(table, log, buffer);
    buffer[length.unwrap_or(0)..].fill(0);
    length
}

/// Writes row by row, as long as there is room.
fn write_rows(table: &[i32], log: &[i32], buffer: &mut [u8]) -> Result<usize, Refused> {
    let predicates = check_table(table)?;
    let mut line = [0; LINE];
    let mut written = 0;
    for row in check_rows(predicates, log, &mut [0; SLOTS])? {
        let mut end = 0;
        let [arity, ..] = predicates[row[0] as usize];
        for word in &row[..2 + arity as usize] {
            end = put_number(&mut line, end, *word);
            line[end] = b',';
            end += 1;
        }
        line[end - 1..=end].copy_from_slice(b"\r\n");
        let line = &line[..=end];
        let room = buffer.get_mut(written..written + line.len()).ok_or((12, 0))?;
        room.copy_from_slice(line);
        written += line.len();
    }
    Ok(written)
}

/// Puts a number into a line and returns where it ends.
pub fn put_number<const N: usize>(line: &mut [u8; N], mut at: usize, number: i32) -> usize {
    if number < 0 {
        line[at] = b'-';
        at += 1;
    }
    let mut rest = number.unsigned_abs();
    let end = at + 1 + rest.checked_ilog10().unwrap_or(0) as usize;
    let (single, pairs) = line[at..end].as_rchunks_mut();
    for pair in pairs.iter_mut().rev() {
        *pair = PAIRS[(rest % 100) as usize];
        rest /= 100;
    }
    if let [digit] = single {
        *digit = b'0' + rest as u8;
    }
    end
}

/// The digits of 0 to 99.
const PAIRS: [[u8; 2]; 100] = {
    let mut pairs = [[0; 2]; 100];
    let mut number = 0;
    while number < 100 {
        pairs[number] = [b'0' + number as u8 / 10, b'0' + number as u8 % 10];
        number += 1;
    }
    pairs
};

#[cfg(test)]
mod tests {
    use inputs::{
        damage_text, damaged_log, damaged_table, decimal_log, full_log, good_table, noise_text, slipping_text,
        spelled_text, Random, Spelling, FULL_LOG_TABLE,
    };
    use reference::Answer;

    use super::{read_log, write_log};
    use crate::answer;

    /// Both answers to a text, with a buffer of so many words.
    fn compare_read(table: &[i32], text: &[u8], room: usize) -> Answer {
        let (mut buffer, mut other) = (vec![-1; room], vec![-1; room]);
        let expected = reference::read_log(table, text, &mut other);
        let name = format!("{room} of buffer: {table:?} {}", text.escape_ascii());
        assert_eq!(answer(read_log(table, text, &mut buffer)), expected, "{name}");
        assert!(buffer == other, "{name}");
        expected
    }

    /// Both answers to a log, with a buffer of so many bytes.
    fn compare_written(table: &[i32], log: &[i32], room: usize) -> Answer {
        let (mut buffer, mut other) = (vec![1; room], vec![1; room]);
        let expected = reference::write_log(table, log, &mut other);
        let name = format!("{room} of buffer: {table:?} {log:?}");
        assert_eq!(answer(write_log(table, log, &mut buffer)), expected, "{name}");
        assert!(buffer == other, "{name}");
        expected
    }

    #[test]
    fn reads_as_the_reference_does() {
        let random = &mut Random::new(0x7E47);
        let mut seen = [0; 15];
        for _ in 0..40_000 {
            let table = good_table(random);
            let mut text = match random.below(4) {
                0 => {
                    let log = decimal_log(random, &table, 8);
                    let spelling = Spelling::any(random);
                    spelled_text(random, &table, &log, spelling)
                }
                1 => noise_text(random, 12),
                _ => slipping_text(random, &table, 8),
            };
            if random.once_in(8) {
                damage_text(random, &mut text);
            }
            let table = if random.once_in(40) {
                damaged_table(random)
            } else {
                table
            };
            let room = random.pick(&[0, 7, 8, 40, 100, 100]);
            seen[compare_read(&table, &text, room).number as usize] += 1;
        }
        for number in [0, 1, 10, 12, 13, 14] {
            assert!(seen[number] > 100, "only {} of {number}", seen[number]);
        }
    }

    #[test]
    fn writes_as_the_reference_does() {
        let random = &mut Random::new(0x7E48);
        let mut seen = [0; 15];
        for _ in 0..20_000 {
            let table = good_table(random);
            let log = if random.once_in(2) {
                decimal_log(random, &table, 8)
            } else {
                damaged_log(random, &table, 8)
            };
            let table = if random.once_in(40) {
                damaged_table(random)
            } else {
                table
            };
            let length = reference::text_of_log(&table, &log).map_or(0, |text| text.len());
            for room in [length, length + 1, length.saturating_sub(1), random.below(length + 1)] {
                seen[compare_written(&table, &log, room).number as usize] += 1;
            }
        }
        for number in [0, 1, 8, 9, 10, 12] {
            assert!(seen[number] > 100, "only {} of {number}", seen[number]);
        }
    }

    #[test]
    fn takes_so_many_rows_and_no_more() {
        let log = full_log(4097);
        let mut text = reference::text_of_log(&FULL_LOG_TABLE, &log[..8 * 4096]).expect("the log is accepted");
        let compare = |text: &[u8], room| compare_read(&FULL_LOG_TABLE, text, room);
        assert_eq!(compare(&text, 8 * 4096), Answer::accepted(4096));
        assert_eq!(compare(&text, 8 * 4096 - 1), Answer::refused(12, 0));
        text.extend(b"0,1,-1,0,0\r\n");
        assert_eq!(compare(&text, 8 * 4097), Answer::refused(8, 0));
        text.extend(b"0,1,-2,0,0\r\n\"0\"");
        assert_eq!(compare(&text, 8 * 4097), Answer::refused(14, 4098));
        text.push(b'"');
        assert_eq!(compare(&text, 8 * 4097), Answer::refused(13, text.len()));
    }
}
