//! Comma-separated text by RFC 4180, without a header, and question 13.
//!
//! ```text
//! text   = *(record CRLF) [record]
//! record = field *("," field)
//! field  = bare / quoted
//! bare   = *TEXTDATA
//! quoted = DQUOTE *(TEXTDATA / "," / CR / LF / 2DQUOTE) DQUOTE
//! ```
//!
//! A last record without CRLF is not the empty one: the empty text has no record, and behind a last CRLF there is none.

use crate::answer::{Question, Refused};

/// The content of a field, without quotes around it and with each doubled quote as one.
pub type Field = Vec<u8>;

/// One field or more.
pub type Record = Vec<Field>;

const COMMA: u8 = b',';
const QUOTE: u8 = b'"';
const CR: u8 = b'\r';
const LF: u8 = b'\n';

/// RFC 4180's TEXTDATA: what stands for itself in all fields.
fn is_textdata(byte: u8) -> bool {
    matches!(byte, b' '..=b'~') && byte != QUOTE && byte != COMMA
}

/// Question 13: reads the records. The place is the first byte that cannot stand there, or the length.
pub fn read_records(text: &[u8]) -> Result<Vec<Record>, Refused> {
    let mut reader = Reader { text, next: 0 };
    let mut records = Vec::new();
    while reader.peek().is_some() {
        records.push(reader.record()?);
    }
    Ok(records)
}

/// Goes through the text from front to back.
struct Reader<'a> {
    text: &'a [u8],
    /// The first byte not yet read.
    next: usize,
}

impl Reader<'_> {
    /// Reads a record and the CRLF behind it, which only the end of the text may replace.
    fn record(&mut self) -> Result<Record, Refused> {
        let mut fields = vec![self.field()?];
        while self.take(COMMA) {
            fields.push(self.field()?);
        }
        if self.take(CR) {
            if !self.take(LF) {
                return Err(self.refused());
            }
        } else if self.peek().is_some() {
            return Err(self.refused());
        }
        Ok(fields)
    }

    fn field(&mut self) -> Result<Field, Refused> {
        if self.take(QUOTE) {
            self.quoted()
        } else {
            Ok(self.bare())
        }
    }

    /// Reads a bare field, up to the first byte that cannot belong to it.
    fn bare(&mut self) -> Field {
        let rest = &self.text[self.next..];
        let end = rest.iter().position(|byte| !is_textdata(*byte));
        let content = &rest[..end.unwrap_or(rest.len())];
        self.next += content.len();
        content.to_vec()
    }

    /// Reads a quoted field, behind its first quote.
    fn quoted(&mut self) -> Result<Field, Refused> {
        let mut content = Field::new();
        loop {
            match self.peek() {
                Some(QUOTE) => {
                    self.next += 1;
                    if !self.take(QUOTE) {
                        return Ok(content);
                    }
                    content.push(QUOTE);
                }
                Some(byte) if is_textdata(byte) || matches!(byte, COMMA | CR | LF) => {
                    self.next += 1;
                    content.push(byte);
                }
                _ => return Err(self.refused()),
            }
        }
    }

    /// The next byte, if there is one.
    fn peek(&self) -> Option<u8> {
        self.text.get(self.next).copied()
    }

    /// Reads this byte, if it is the next one.
    fn take(&mut self, byte: u8) -> bool {
        let is_next = self.peek() == Some(byte);
        self.next += usize::from(is_next);
        is_next
    }

    /// The refusal at the next byte, or at the end.
    fn refused(&self) -> Refused {
        Question::Csv.at(self.next)
    }
}
