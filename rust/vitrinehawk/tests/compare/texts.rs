//! Logs as comma-separated text: reading and writing.

use inputs::{
    damage, damage_text, damaged_log, damaged_table, decimal_log, good_log, good_table, noise_text, random_log,
    slipping_text, spelled_text, Random, Spelling, TEXT_BYTES,
};
use reference::Answer;

use crate::comparison::Comparison;

/// A table and a good log of at most so many rows, with numbers of all lengths, small ones or any.
fn table_and_log(random: &mut Random, most_rows: usize) -> (Vec<i32>, Vec<i32>) {
    let table = good_table(random);
    let log = match random.below(3) {
        0 => decimal_log(random, &table, most_rows),
        1 => good_log(random, &table, most_rows, 4),
        _ => {
            let rows = random.below(most_rows + 1);
            random_log(random, &table, rows)
        }
    };
    (table, log)
}

/// A table and the text of a good log, spelled in any way; and the log.
fn table_and_text(random: &mut Random, most_rows: usize) -> (Vec<i32>, Vec<u8>, Vec<i32>) {
    let (table, log) = table_and_log(random, most_rows);
    let spelling = Spelling::any(random);
    let text = spelled_text(random, &table, &log, spelling);
    (table, text, log)
}

/// Lengths of a buffer: more than enough, just enough, too short and none.
pub fn rooms(enough: usize) -> [usize; 5] {
    [enough + 20, enough + 1, enough, enough.saturating_sub(1), 0]
}

/// One of these, enough more often than not.
pub fn room(random: &mut Random, enough: usize) -> usize {
    let [more, one_more, just, short, none] = rooms(enough);
    random.pick(&[more, more, one_more, just, just, just, short, none])
}

/// What has to be answered if so much is needed, with what the call counts.
pub fn expected(needed: usize, room: usize, count: usize) -> Answer {
    if needed <= room {
        Answer::accepted(count)
    } else {
        Answer::refused(12, 0)
    }
}

/// Compares reading a text with all kinds of buffers, and makes sure that it stands for this log.
fn check_read(comparison: &mut Comparison, table: &[i32], text: &[u8], log: &[i32]) {
    for room in rooms(log.len()) {
        let (answer, read) = comparison.read_log(table, text, room);
        assert_eq!(
            answer,
            expected(log.len(), room, log.len() / 8),
            "{}",
            text.escape_ascii()
        );
        assert!(answer.number != 0 || read == log, "{}", text.escape_ascii());
    }
}

/// The same for writing a log.
fn check_written(comparison: &mut Comparison, table: &[i32], log: &[i32], text: &[u8]) {
    for room in rooms(text.len()) {
        let (answer, written) = comparison.write_log(table, log, room);
        assert_eq!(answer, expected(text.len(), room, text.len()), "{log:?}");
        assert!(answer.number != 0 || written == text, "{log:?}");
    }
}

#[test]
fn logs_written_and_read_back() {
    let mut comparison = Comparison::new(0xD001);
    for _ in 0..4_000 {
        let (table, log) = table_and_log(&mut comparison.random, 20);
        let text = spelled_text(&mut comparison.random, &table, &log, Spelling::PLAIN);
        check_written(&mut comparison, &table, &log, &text);
        check_read(&mut comparison, &table, &text, &log);
    }
    comparison.has_seen(&[0, 12], 10_000);
}

/// All fields quoted or none, a last line end or not; and any mixture. What is read is written plainly, and read again
/// it is the same.
#[test]
fn texts_as_other_programs_write_them() {
    let mut comparison = Comparison::new(0xD002);
    for _ in 0..1_000 {
        let (table, log) = table_and_log(&mut comparison.random, 20);
        let mixed = Spelling::any(&mut comparison.random);
        for spelling in Spelling::USUAL.into_iter().chain([mixed]) {
            let text = spelled_text(&mut comparison.random, &table, &log, spelling);
            check_read(&mut comparison, &table, &text, &log);
            let (_, read) = comparison.read_log(&table, &text, log.len());
            let (_, written) = comparison.write_log(&table, &read, 2_000);
            check_read(&mut comparison, &table, &written, &read);
        }
    }
    comparison.has_seen(&[0, 12], 10_000);
}

#[test]
fn damaged_logs_are_not_written() {
    let mut comparison = Comparison::new(0xD003);
    for _ in 0..30_000 {
        let table = good_table(&mut comparison.random);
        let log = damaged_log(&mut comparison.random, &table, 12);
        // Question 12 comes last: a short buffer makes no difference to the others.
        let room = comparison.random.pick(&[0, 1, 10, 100, 1_000]);
        comparison.write_log(&table, &log, room);
    }
    comparison.has_seen(&[0, 8, 9, 10, 12], 1_000);
}

#[test]
fn texts_with_slips() {
    let mut comparison = Comparison::new(0xD004);
    let mut several = 0;
    for _ in 0..60_000 {
        let table = good_table(&mut comparison.random);
        let text = slipping_text(&mut comparison.random, &table, 12);
        let rows = text.split(|byte| *byte == b'\n').count();
        let room = room(&mut comparison.random, 8 * rows);
        let (answer, _) = comparison.read_log(&table, &text, room);
        several += usize::from(answer.count > 3);
    }
    println!("{several} logs of more than three rows");
    assert!(several > 5_000);
    comparison.has_seen(&[0, 10, 12, 13, 14], 3_000);
}

#[test]
fn damaged_texts() {
    let mut comparison = Comparison::new(0xD005);
    for _ in 0..10_000 {
        let (table, text, log) = table_and_text(&mut comparison.random, 8);
        for _ in 0..4 {
            let mut damaged = text.clone();
            for _ in 0..comparison.random.between(1, 3) {
                damage_text(&mut comparison.random, &mut damaged);
            }
            let room = room(&mut comparison.random, log.len());
            comparison.read_log(&table, &damaged, room);
        }
    }
    comparison.has_seen(&[0, 10, 12, 13, 14], 500);
}

#[test]
fn bytes_without_order() {
    let mut comparison = Comparison::new(0xD006);
    for _ in 0..100_000 {
        let table = good_table(&mut comparison.random);
        let text = noise_text(&mut comparison.random, 16);
        comparison.read_log(&table, &text, 24);
    }
    comparison.has_seen(&[0, 13, 14], 1_000);
}

/// All texts of up to seven of these bytes, over a predicate of one argument.
#[test]
fn every_short_text() {
    let mut comparison = Comparison::new(0xD007);
    let mut texts = vec![Vec::new()];
    while let Some(text) = texts.pop() {
        comparison.read_log(&[1, 0, 0], &text, 8);
        if text.len() < 7 {
            texts.extend(b"01,\"\r\n".map(|byte| [&text[..], &[byte]].concat()));
        }
    }
    comparison.has_seen(&[13, 14], 10_000);
    // The empty text; either truth with 0 or 1, as it is, with a line end, and with one of the fields quoted; and with
    // numbers of two and of three digits.
    comparison.has_seen(&[0], 1 + (4 + 4 + 3 * 4) + 4 + 8);
}

#[test]
fn every_cut() {
    let mut comparison = Comparison::new(0xD008);
    for _ in 0..400 {
        let (table, text, log) = table_and_text(&mut comparison.random, 12);
        for length in 0..=text.len() {
            let room = room(&mut comparison.random, log.len());
            comparison.read_log(&table, &text[..length], room);
        }
    }
    comparison.has_seen(&[0, 12, 13, 14], 1_000);
}

/// Each byte replaced by each other one, in short texts.
#[test]
fn every_byte_changed() {
    let mut comparison = Comparison::new(0xD009);
    let mut tried = 0;
    while tried < 200 {
        let (table, mut text, log) = table_and_text(&mut comparison.random, 3);
        if !(5..=40).contains(&text.len()) {
            continue;
        }
        tried += 1;
        for place in 0..text.len() {
            let before = text[place];
            for byte in 0..=255 {
                text[place] = byte;
                comparison.read_log(&table, &text, log.len());
            }
            text[place] = before;
        }
    }
    comparison.has_seen(&[0, 13, 14], 10_000);
    comparison.has_seen(&[10], 10);
}

/// Each byte replaced by each of those that matter, dropped, or another one put before it, in longer texts.
#[test]
fn bytes_changed_in_longer_texts() {
    let mut comparison = Comparison::new(0xD00A);
    for _ in 0..150 {
        let (table, text, log) = table_and_text(&mut comparison.random, 12);
        for place in 0..text.len() {
            let (front, rest) = text.split_at(place);
            comparison.read_log(&table, &[front, &rest[1..]].concat(), log.len());
            for byte in TEXT_BYTES {
                let room = room(&mut comparison.random, log.len());
                comparison.read_log(&table, &[front, &[byte], &rest[1..]].concat(), room);
                comparison.read_log(&table, &[front, &[byte], rest].concat(), room);
            }
        }
    }
    comparison.has_seen(&[0, 12, 13, 14], 10_000);
    comparison.has_seen(&[10], 50);
}

/// Every length of a buffer up to a little more than enough, also where another question is answered with "no".
#[test]
fn every_length_of_a_buffer() {
    let mut comparison = Comparison::new(0xD00B);
    for _ in 0..200 {
        let (table, text, log) = table_and_text(&mut comparison.random, 8);
        for room in 0..=log.len() + 9 {
            let (answer, _) = comparison.read_log(&table, &text, room);
            assert_eq!(answer, expected(log.len(), room, log.len() / 8));
        }
        let plain = spelled_text(&mut comparison.random, &table, &log, Spelling::PLAIN);
        for room in 0..=plain.len() + 2 {
            let (answer, _) = comparison.write_log(&table, &log, room);
            assert_eq!(answer, expected(plain.len(), room, plain.len()));
        }
        let slipping = slipping_text(&mut comparison.random, &table, 8);
        let damaged = damaged_log(&mut comparison.random, &table, 8);
        for room in 0..=72 {
            comparison.read_log(&table, &slipping, room);
            comparison.write_log(&table, &damaged, room);
        }
    }
    comparison.has_seen(&[0, 8, 9, 10, 12, 13, 14], 500);
}

/// A text with its first record again at the end.
fn with_first_again(text: &[u8]) -> Vec<u8> {
    let end = text.windows(2).position(|bytes| bytes == b"\r\n").unwrap_or(text.len());
    let ends = text.ends_with(b"\r\n");
    [text, if ends { b"" } else { b"\r\n" }, &text[..end]].concat()
}

/// About as many rows as a log may have.
#[test]
fn long_texts() {
    let mut comparison = Comparison::new(0xD00C);
    let table = [6, 0, 1, 1, 1, 0, 3, 2, 0];
    for _ in 0..12 {
        for rows in [4_095, 4_096, 4_097, 4_200] {
            let random = &mut comparison.random;
            let log = random_log(random, &table, rows);
            let spelling = Spelling::any(random);
            let text = spelled_text(random, &table, &log, spelling);
            let mut damaged = text.clone();
            damage_text(random, &mut damaged);
            let mut written = log.clone();
            if random.once_in(2) {
                damage(random, &mut written);
            }
            let room = room(random, log.len());
            comparison.read_log(&table, &text, room);
            comparison.read_log(&table, &text, 0);
            comparison.read_log(&table, &with_first_again(&text), room);
            comparison.read_log(&table, &[&text[..], b"\r\n\r\n"].concat(), room);
            comparison.read_log(&table, &damaged, room);
            comparison.write_log(&table, &written, 100 * rows);
        }
    }
    comparison.has_seen(&[0, 8, 10, 12, 13, 14], 10);
}

/// Question 1 comes first.
#[test]
fn tables_of_texts() {
    let mut comparison = Comparison::new(0xD00D);
    for _ in 0..20_000 {
        let (_, text, log) = table_and_text(&mut comparison.random, 3);
        let table = damaged_table(&mut comparison.random);
        comparison.read_log(&table, &text, log.len());
        comparison.write_log(&table, &log, 200);
        let noise = noise_text(&mut comparison.random, 8);
        comparison.read_log(&table, &noise, 8);
    }
    comparison.has_seen(&[0, 1, 9, 13, 14], 500);
}
