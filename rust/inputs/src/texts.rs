//! Random texts: logs as comma-separated text, well formed or not.

use crate::Random;

/// Bytes at which something changes, somewhere in a text.
pub const TEXT_BYTES: [u8; 19] = [
    b'0', b'1', b'9', b'-', b',', b'"', b'\r', b'\n', b' ', b'a', b'/', b':', b'~', 0, 9, 31, 127, 128, 255,
];

const LINE_END: &[u8] = b"\r\n";

/// How the text of a log is spelled.
#[derive(Clone, Copy, Debug)]
pub struct Spelling {
    /// On average one field in so many is quoted; if `None`, none is.
    pub quoted: Option<usize>,
    /// Whether CRLF stands behind the last record too.
    pub last_line_end: bool,
}

impl Spelling {
    /// Nothing is quoted, and all lines end.
    pub const PLAIN: Spelling = Spelling {
        quoted: None,
        last_line_end: true,
    };

    /// As programs write: all fields quoted or none, CRLF behind the last record or not.
    pub const USUAL: [Spelling; 4] = [
        Spelling::PLAIN,
        Spelling {
            quoted: Some(1),
            ..Spelling::PLAIN
        },
        Spelling {
            last_line_end: false,
            ..Spelling::PLAIN
        },
        Spelling {
            quoted: Some(1),
            last_line_end: false,
        },
    ];

    /// Any spelling.
    pub fn any(random: &mut Random) -> Self {
        Spelling {
            quoted: random.pick(&[None, Some(1), Some(2), Some(10)]),
            last_line_end: random.once_in(2),
        }
    }
}

/// The text of a good log.
pub fn spelled_text(random: &mut Random, table: &[i32], log: &[i32], spelling: Spelling) -> Vec<u8> {
    let mut text = Vec::new();
    for row in log.chunks(8) {
        let arity = table[3 * row[0] as usize] as usize;
        for (place, word) in row[..2 + arity].iter().enumerate() {
            if place > 0 {
                text.push(b',');
            }
            let quoted = spelling.quoted.is_some_and(|quoted| random.once_in(quoted));
            push_field(&mut text, word.to_string().as_bytes(), quoted);
        }
        text.extend(LINE_END);
    }
    if !spelling.last_line_end {
        text.truncate(text.len().saturating_sub(LINE_END.len()));
    }
    text
}

/// Adds a field with this content.
fn push_field(text: &mut Vec<u8>, content: &[u8], quoted: bool) {
    if !quoted {
        text.extend(content);
        return;
    }
    text.push(b'"');
    for byte in content {
        text.push(*byte);
        if *byte == b'"' {
            text.push(b'"');
        }
    }
    text.push(b'"');
}

/// Contents of fields that are no numbers, or too great ones; some are good numbers once they wrap.
const NO_NUMBERS: [&[u8]; 30] = [
    b"",
    b"-",
    b"-0",
    b"00",
    b"07",
    b"-07",
    b"+7",
    b" 7",
    b"7 ",
    b"--7",
    b"7-",
    b"0x7",
    b"7.0",
    b"7e1",
    b"a",
    b"/",
    b":",
    b"7/",
    b"7:",
    b"7a",
    b"2147483648",
    b"-2147483649",
    b"4294967296",
    b"4294967297",
    b"-4294967295",
    b"9999999999",
    b"18446744073709551616",
    b"18446744073709551617",
    b"00000000000000000000000000000000000000001",
    b"340282366920938463463374607431768211457",
];

/// Contents that only a quoted field can have, and no number either.
const QUOTED_ONLY: [&[u8]; 10] = [
    b",", b"7,8", b"\"", b"\"7\"", b"7\"8", b"\r\n", b"7\r\n", b"\n", b"7\r", b"\"\"",
];

/// What a line may end with by mistake.
const WRONG_LINE_ENDS: [&[u8]; 7] = [b"\n", b"\r", b"\r\r\n", b"\n\r", b"\r\n\n", b" \r", b"\"\r\n"];

/// A text of at most so many records that are rows, or nearly. Arguments are 0 to 4, so that atoms repeat each other.
pub fn slipping_text(random: &mut Random, table: &[i32], most_records: usize) -> Vec<u8> {
    let records = random.below(most_records + 1);
    let mut maker = Maker {
        quoted: Spelling::any(random).quoted,
        row_slips: random.pick(&[None, Some(20), Some(100), Some(400)]),
        text_slips: random.pick(&[None, None, Some(100), Some(400)]),
        random,
        table,
        text: Vec::new(),
    };
    for _ in 0..records {
        maker.record();
    }
    let mut text = maker.text;
    if text.ends_with(LINE_END) && random.once_in(3) {
        text.truncate(text.len() - LINE_END.len());
    }
    text
}

/// Writes a text from front to back.
struct Maker<'a> {
    random: &'a mut Random,
    table: &'a [i32],
    /// On average one field in so many is quoted; if `None`, none is.
    quoted: Option<usize>,
    /// On average one choice in so many makes a record no row; if `None`, none does.
    row_slips: Option<usize>,
    /// On average one choice in so many makes the text one that is not allowed; if `None`, none does.
    text_slips: Option<usize>,
    text: Vec<u8>,
}

impl Maker<'_> {
    fn row_slip(&mut self) -> bool {
        self.row_slips.is_some_and(|slips| self.random.once_in(slips))
    }

    fn text_slip(&mut self) -> bool {
        self.text_slips.is_some_and(|slips| self.random.once_in(slips))
    }

    fn record(&mut self) {
        let predicate = self.random.below(self.table.len() / 3);
        let mut numbers = vec![predicate as i32, self.random.below(2) as i32];
        let arity = self.table[3 * predicate];
        numbers.extend((0..arity).map(|_| self.random.below(5) as i32));
        if self.row_slip() {
            self.slip(&mut numbers);
        }
        for (place, number) in numbers.iter().enumerate() {
            if place > 0 {
                self.text.push(b',');
            }
            self.field(*number);
        }
        if self.text_slip() {
            self.text.extend(self.random.pick(&WRONG_LINE_ENDS));
        } else {
            self.text.extend(LINE_END);
        }
    }

    /// Makes the numbers of a row those of none, or of another.
    fn slip(&mut self, numbers: &mut Vec<i32>) {
        let predicates = (self.table.len() / 3) as i32;
        match self.random.below(6) {
            0 => numbers.push(0),
            1 => {
                numbers.pop();
            }
            2 => numbers.truncate(self.random.below(3)),
            3 => numbers[0] = self.random.pick(&[-1, predicates, i32::MIN, i32::MAX]),
            4 => numbers[1] = self.random.pick(&[-1, 2, i32::MAX]),
            _ => {
                for number in &mut numbers[2..] {
                    *number = self.random.pick(&[i32::MIN, i32::MAX, -1, 10, -10]);
                }
            }
        }
    }

    fn field(&mut self, number: i32) {
        let quoted = self.quoted.is_some_and(|quoted| self.random.once_in(quoted));
        let from = self.text.len();
        if !self.row_slip() {
            push_field(&mut self.text, number.to_string().as_bytes(), quoted);
        } else if self.random.once_in(3) {
            push_field(&mut self.text, self.random.pick(&QUOTED_ONLY), true);
        } else {
            push_field(&mut self.text, self.random.pick(&NO_NUMBERS), quoted);
        }
        if self.text_slip() {
            let place = self.random.between(from, self.text.len());
            self.text.insert(place, self.random.pick(&TEXT_BYTES));
        }
    }
}

/// Changes a text in one way: replaces, moves, drops or adds a byte, repeats a line, or cuts it off.
pub fn damage_text(random: &mut Random, text: &mut Vec<u8>) {
    if text.is_empty() {
        text.push(random.pick(&TEXT_BYTES));
        return;
    }
    let place = random.below(text.len());
    let other = random.below(text.len());
    match random.below(11) {
        0..=2 => text[place] = random.pick(&TEXT_BYTES),
        3 => text[place] = random.number() as u8,
        4 => text[place] = text[other],
        5 => text.swap(place, other),
        6 => {
            text.remove(place);
        }
        7..=8 => text.insert(place, random.pick(&TEXT_BYTES)),
        9 => repeat_line(text, place, other),
        _ => text.truncate(place),
    }
}

/// Puts a copy of the line at one place before the line at another.
fn repeat_line(text: &mut Vec<u8>, copied: usize, before: usize) {
    let start = |place: usize| {
        text[..place]
            .iter()
            .rposition(|byte| *byte == b'\n')
            .map_or(0, |end| end + 1)
    };
    let (copied, before) = (start(copied), start(before));
    let line = text[copied..].split_inclusive(|byte| *byte == b'\n').next();
    let line = line.unwrap_or(&[]).to_vec();
    text.splice(before..before, line);
}

/// Pieces of which an allowed text is more likely made than of single bytes.
const PIECES: [&[u8]; 9] = [b"0", b"1", b"-", b",", b",", b"\r\n", b"\"", b"\"\"", b" "];

/// At most so many bytes or pieces without any order.
pub fn noise_text(random: &mut Random, most: usize) -> Vec<u8> {
    let length = random.below(most + 1);
    let pieces = random.once_in(2);
    let mut text = Vec::new();
    for _ in 0..length {
        if pieces && !random.once_in(30) {
            text.extend(random.pick(&PIECES));
        } else {
            text.push(random.pick(&TEXT_BYTES));
        }
    }
    text
}

#[cfg(test)]
mod tests {
    use super::*;

    const TABLE: [i32; 6] = [3, 0, 0, 1, 0, 1];
    const LOG: [i32; 16] = [0, 1, 7, -9, 100, 0, 0, 0, 1, 0, i32::MIN, 0, 0, 0, 0, 0];

    #[test]
    fn usual_spellings() {
        let random = &mut Random::new(0);
        let texts = Spelling::USUAL.map(|spelling| spelled_text(random, &TABLE, &LOG, spelling));
        let [plain, quoted, cut, quoted_and_cut] = &texts;
        assert_eq!(plain, b"0,1,7,-9,100\r\n1,0,-2147483648\r\n");
        assert_eq!(
            quoted,
            b"\"0\",\"1\",\"7\",\"-9\",\"100\"\r\n\"1\",\"0\",\"-2147483648\"\r\n"
        );
        assert_eq!(cut[..], plain[..plain.len() - 2]);
        assert_eq!(quoted_and_cut[..], quoted[..quoted.len() - 2]);
        assert!(Spelling::USUAL.map(|spelling| spelled_text(random, &TABLE, &[], spelling)) == [[]; 4]);
    }

    #[test]
    fn lines_are_repeated() {
        let repeated = |copied, before| {
            let mut text = b"a\r\nbc\r\nd".to_vec();
            repeat_line(&mut text, copied, before);
            text
        };
        assert_eq!(repeated(0, 7), b"a\r\nbc\r\na\r\nd");
        assert_eq!(repeated(4, 1), b"bc\r\na\r\nbc\r\nd");
        assert_eq!(repeated(7, 3), b"a\r\ndbc\r\nd");
    }

    #[test]
    fn quotes_are_doubled() {
        let mut text = Vec::new();
        push_field(&mut text, b"7\"8", true);
        assert_eq!(text, b"\"7\"\"8\"");
    }
}
