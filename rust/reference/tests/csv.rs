//! RFC 4180: the records and fields of texts, and where a text is refused.

use std::collections::BTreeMap;
use std::slice::from_ref;

use reference::csv::{read_records, Field, Record};
use reference::Question;

/// The records of an allowed text, as strings.
fn records(text: &str) -> Vec<Vec<String>> {
    let string = |field: &Field| String::from_utf8(field.clone()).unwrap();
    let records = read_records(text.as_bytes()).unwrap();
    records
        .iter()
        .map(|record| record.iter().map(string).collect())
        .collect()
}

#[test]
fn lines_and_fields() {
    assert_eq!(records(""), [[""; 0]; 0]);
    assert_eq!(records("\r\n"), [[""]]);
    assert_eq!(records("\r\n\r\n"), [[""], [""]]);
    assert_eq!(records("a"), [["a"]]);
    assert_eq!(records("a\r\n"), [["a"]]);
    assert_eq!(records("a\r\nb"), [["a"], ["b"]]);
    assert_eq!(records("a\r\n\r\nb"), [["a"], [""], ["b"]]);
    assert_eq!(records("\"\""), [[""]]);
    assert_eq!(records(","), [["", ""]]);
    assert_eq!(records("a,b\r\nc"), [vec!["a", "b"], vec!["c"]]);
    assert_eq!(records(" a , b "), [[" a ", " b "]]);
    assert_eq!(records("!#+-~,'"), [["!#+-~", "'"]]);
}

#[test]
fn quoted_fields() {
    assert_eq!(records("\"a\",b,\"c\"\r\n"), [["a", "b", "c"]]);
    assert_eq!(records("\"a,b\",c"), [["a,b", "c"]]);
    assert_eq!(records("\"a\r\nb\"\r\nc"), [["a\r\nb"], ["c"]]);
    assert_eq!(records("\"\r\",\"\n\""), [["\r", "\n"]]);
    assert_eq!(records("\"a\"\"b\""), [["a\"b"]]);
    assert_eq!(records("\"\"\"\""), [["\""]]);
    assert_eq!(records("\"\"\"\"\"\",\"\""), [["\"\"", ""]]);
}

/// A spelling over a digit, the comma, the quote, CR and LF, and what it spells.
type Spelled<T> = (Vec<u8>, T);

/// All fields of at most so many bytes, by the grammar.
fn spelled_fields(most: usize) -> Vec<Spelled<Field>> {
    let bare = |digits| (vec![b'0'; digits], vec![b'0'; digits]);
    let mut fields: Vec<_> = (0..=most).map(bare).collect();
    let pieces: [&[u8]; 5] = [b"0", b",", b"\r", b"\n", b"\"\""];
    let mut contents = vec![(Vec::new(), Field::new())];
    while let Some((spelled, content)) = contents.pop() {
        if spelled.len() + 2 > most {
            continue;
        }
        for piece in pieces {
            contents.push(([&spelled, piece].concat(), [&content, &piece[..1]].concat()));
        }
        fields.push(([b"\"", &spelled[..], b"\""].concat(), content));
    }
    fields
}

/// All records.
fn spelled_records(most: usize) -> Vec<Spelled<Record>> {
    let fields = spelled_fields(most);
    let mut open: Vec<_> = fields
        .iter()
        .cloned()
        .map(|(text, field)| (text, vec![field]))
        .collect();
    let mut records = Vec::new();
    while let Some((text, record)) = open.pop() {
        for (spelled, field) in &fields {
            if text.len() + 1 + spelled.len() <= most {
                open.push((
                    [&text, &b","[..], spelled].concat(),
                    [&record[..], from_ref(field)].concat(),
                ));
            }
        }
        records.push((text, record));
    }
    records
}

/// All texts.
fn allowed_texts(most: usize) -> BTreeMap<Vec<u8>, Vec<Record>> {
    let lines = spelled_records(most);
    let mut ended = vec![(Vec::new(), Vec::new())];
    let mut texts = BTreeMap::new();
    let mut allow = |text, records| assert_eq!(texts.insert(text, records), None, "a text has one reading");
    while let Some((text, records)) = ended.pop() {
        for (line, record) in lines.iter().filter(|(line, _)| text.len() + line.len() <= most) {
            let (text, records) = ([&text, &line[..]].concat(), [&records[..], from_ref(record)].concat());
            if text.len() + 2 <= most {
                ended.push(([&text[..], b"\r\n"].concat(), records.clone()));
            }
            if !line.is_empty() {
                allow(text, records);
            }
        }
        allow(text, records);
    }
    texts
}

/// Every text of at most six bytes over these and one that is allowed nowhere is read as the grammar says. If it is
/// refused, the text before the place begins an allowed one and the text with it begins none, or the place is the end.
#[test]
fn every_short_text() {
    let allowed = allowed_texts(7);
    // One byte more is enough to end what an allowed text can begin with.
    let begins_one = |text: &[u8]| {
        let mut from = allowed.range(text.to_vec()..);
        from.next().is_some_and(|(first, _)| first.starts_with(text))
    };
    let (mut accepted, mut refused, mut at_the_end) = (0, 0, 0);
    let mut texts = vec![Vec::new()];
    while let Some(text) = texts.pop() {
        match read_records(&text) {
            Ok(records) => {
                assert_eq!(allowed.get(&text), Some(&records), "{}", text.escape_ascii());
                accepted += 1;
            }
            Err(refusal) => {
                assert_eq!(refusal.question, Question::Csv);
                assert!(!allowed.contains_key(&text));
                let place = refusal.place;
                assert!(begins_one(&text[..place]), "{}: {place}", text.escape_ascii());
                if place < text.len() {
                    assert!(!begins_one(&text[..=place]), "{}: {place}", text.escape_ascii());
                    refused += 1;
                } else {
                    at_the_end += 1;
                }
            }
        }
        if text.len() < 6 {
            texts.extend([b'0', b',', b'"', b'\r', b'\n', 127].map(|byte| [&text[..], &[byte]].concat()));
        }
    }
    println!("{accepted} allowed, {refused} refused at a byte, {at_the_end} at the end");
    assert_eq!(accepted, allowed.keys().filter(|text| text.len() <= 6).count());
    assert_eq!(
        accepted + refused + at_the_end,
        (0..=6).map(|length| 6_usize.pow(length)).sum()
    );
    assert!(accepted > 1_000 && refused > 10_000 && at_the_end > 1_000);
}
