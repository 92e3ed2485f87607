//! A log as comma-separated text, a record for each row, and question 14.

use crate::answer::{Question, Refused};
use crate::csv::Record;
use crate::log::{BEFORE_ARGUMENTS, ROW};
use crate::table::Predicate;

/// Question 14: the words of the rows that the records stand for.
pub fn read_rows(predicates: &[Predicate], records: &[Record]) -> Result<Vec<i32>, Refused> {
    let mut words = Vec::with_capacity(ROW * records.len());
    for (number, record) in records.iter().enumerate() {
        words.extend(read_row(predicates, record).ok_or(Question::Record.at(number))?);
    }
    Ok(words)
}

/// The row of a record: a predicate that exists, a truth, and as many arguments as the arity.
fn read_row(predicates: &[Predicate], record: &Record) -> Option<[i32; ROW]> {
    let numbers: Vec<i32> = record.iter().map(|field| read_number(field)).collect::<Option<_>>()?;
    let [predicate, 0..=1, ref arguments @ ..] = numbers[..] else {
        return None;
    };
    let predicate = predicates.get(usize::try_from(predicate).ok()?)?;
    if arguments.len() != predicate.arity {
        return None;
    }
    let mut row = [0; ROW];
    row[..numbers.len()].copy_from_slice(&numbers);
    Some(row)
}

/// A decimal number of 32 bits: a minus only before a number other than 0, no leading zeros.
fn read_number(field: &[u8]) -> Option<i32> {
    if field == b"0" {
        return Some(0);
    }
    let digits = field.strip_prefix(b"-").unwrap_or(field);
    let [b'1'..=b'9', more @ ..] = digits else {
        return None;
    };
    if !more.iter().all(u8::is_ascii_digit) {
        return None;
    }
    // What is left to go wrong is that there are too many digits.
    str::from_utf8(field).ok()?.parse().ok()
}

/// The text of an accepted log: nothing quoted, CRLF behind every record.
pub fn write_rows(predicates: &[Predicate], words: &[i32]) -> Vec<u8> {
    let mut text = String::new();
    for row in words.chunks(ROW) {
        let arity = predicates[row[0] as usize].arity;
        let fields = &row[..BEFORE_ARGUMENTS + arity];
        let fields: Vec<String> = fields.iter().map(i32::to_string).collect();
        text.push_str(&fields.join(","));
        text.push_str("\r\n");
    }
    text.into_bytes()
}
