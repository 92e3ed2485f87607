//! Logs as comma-separated text: reading and writing.

use std::hint::black_box;

use inputs::{spelled_text, Random, Spelling};
use reference::Answer;

use crate::logs::{Kind, KINDS};
use crate::measure::{agreed, Call, Lent, Room, Times};
use crate::report::{row, row_with, IMPLEMENTATIONS};
use crate::{answer, library, peer};

/// The rows of the logs.
const ROWS: [usize; 2] = [256, 4_096];

/// Every field is quoted.
const QUOTED: Spelling = Spelling {
    quoted: Some(1),
    ..Spelling::PLAIN
};

/// Calls on the texts of logs of one kind, with their times.
pub struct Measured {
    name: String,
    rows: usize,
    /// The bytes of a row, on average.
    bytes: f64,
    times: Vec<Times>,
}

/// Compares and measures reading and writing.
pub fn measure_all() -> Vec<Measured> {
    let mut measured = Vec::new();
    for Kind { name, table, make, .. } in KINDS {
        let words = make();
        for rows in ROWS {
            let logs: Vec<_> = words.chunks(8 * rows).collect();
            let name = format!("{name}, {rows} rows");
            measured.extend(measure(&name, table, rows, &logs));
        }
    }
    measured
}

/// Measures the calls on logs of so many rows. A buffer has just the words that the rows need, or just the bytes of the
/// longest text; or nothing.
fn measure(name: &str, table: &[i32], rows: usize, logs: &[&[i32]]) -> [Measured; 4] {
    let random = &mut Random::new(0x7E47);
    let [plain, quoted] = [Spelling::PLAIN, QUOTED].map(|spelling| {
        let text = |log: &&[i32]| spelled_text(random, table, log, spelling);
        logs.iter().map(text).collect::<Vec<_>>()
    });
    let words = Room {
        buffer: 8 * rows,
        ..Lent::NOTHING
    };
    let bytes = Room {
        bytes: plain.iter().map(Vec::len).max().unwrap_or(0),
        ..Lent::NOTHING
    };
    refuse(name, table, rows, &plain[0], logs[0]);

    let measured = |call: &str, texts: &[Vec<u8>], measure: &dyn Fn(&str) -> Vec<Times>| {
        let name = format!("{call}, {name}");
        Measured {
            times: measure(&name),
            name,
            rows,
            bytes: texts.iter().map(Vec::len).sum::<usize>() as f64 / (rows * texts.len()) as f64,
        }
    };
    [
        measured("read log", &plain, &|name| {
            with_reads(table, &plain, |calls| row(name, plain.len(), words, calls))
        }),
        measured("quoted", &quoted, &|name| {
            with_reads(table, &quoted, |calls| row(name, quoted.len(), words, calls))
        }),
        measured("no room", &plain, &|name| {
            with_reads(table, &plain, |calls| {
                row_with(12, name, plain.len(), Lent::NOTHING, calls)
            })
        }),
        measured("write log", &plain, &|name| {
            with_writes(table, logs, |calls| row(name, logs.len(), bytes, calls))
        }),
    ]
}

/// Does something with the calls that read the texts.
fn with_reads<T>(table: &[i32], texts: &[Vec<u8>], work: impl FnOnce(&[Call]) -> T) -> T {
    let text = |input: usize| black_box(&texts[input % texts.len()][..]);
    work(&[
        &|input, lent| library(vitrinehawk::read_log(table, text(input), &mut lent.buffer)),
        &|input, lent| reference::read_log(table, text(input), &mut lent.buffer),
        &|input, lent| answer(peer::read_log(table, text(input), &mut lent.buffer)),
    ])
}

/// Does something with the calls that write the logs.
fn with_writes<T>(table: &[i32], logs: &[&[i32]], work: impl FnOnce(&[Call]) -> T) -> T {
    let log = |input: usize| black_box(logs[input % logs.len()]);
    work(&[
        &|input, lent| library(vitrinehawk::write_log(table, log(input), &mut lent.bytes)),
        &|input, lent| reference::write_log(table, log(input), &mut lent.bytes),
        &|input, lent| answer(peer::write_log(table, log(input), &mut lent.bytes)),
    ])
}

/// Compares the calls on variants of a plain text and of its log that are refused.
fn refuse(name: &str, table: &[i32], rows: usize, text: &[u8], log: &[i32]) {
    let first = text.split_inclusive(|byte| *byte == b'\n').next().unwrap_or(&[]);
    let again = if rows < 4_096 {
        Answer::refused(10, rows)
    } else {
        Answer::refused(8, 0)
    };
    let read = |text: &[u8], less: usize, expected: Answer| {
        let room = Room {
            buffer: log.len() - less,
            ..Lent::NOTHING
        };
        let answer = with_reads(table, &[text.to_vec()], |calls| agreed(name, 0, room, calls));
        assert_eq!(answer, expected, "{name}: the answer to a bad text");
    };
    let with = |end: &[u8]| [text, end].concat();
    read(text, 1, Answer::refused(12, 0));
    read(&text[..text.len() - 1], 0, Answer::refused(13, text.len() - 1));
    read(&with(b"\n"), 0, Answer::refused(13, text.len()));
    read(&with(b"\""), 0, Answer::refused(13, text.len() + 1));
    read(&with(b"\r\n"), 0, Answer::refused(14, rows));
    read(&with(b"0,1"), 0, Answer::refused(14, rows));
    read(&with(first), 0, again);
    let write = |log: &[i32], less: usize, expected: Answer| {
        let room = Room {
            bytes: text.len() - less,
            ..Lent::NOTHING
        };
        let answer = with_writes(table, &[log], |calls| agreed(name, 0, room, calls));
        assert_eq!(answer, expected, "{name}: the answer to a bad log");
    };
    write(log, 1, Answer::refused(12, 0));
    write(&log[1..], 0, Answer::refused(8, 0));
    write(&[log, &log[..8]].concat(), 0, again);
}

/// Prints the time for a row, and its bytes.
pub fn print(measured: &[Measured]) {
    println!("Logs as text. Nanoseconds for a row, medians; bytes of a row, on average.");
    println!();
    print!("{:<32}", "");
    for implementation in IMPLEMENTATIONS {
        print!(" {implementation:>12}");
    }
    println!(" {:>8}", "bytes");
    for Measured {
        name,
        rows,
        bytes,
        times,
    } in measured
    {
        print!("{name:<32}");
        for times in times {
            print!(" {:>12.2}", times.median() * 1e9 / *rows as f64);
        }
        println!(" {bytes:>8.1}");
    }
    println!();
    println!(
        "read log: the text as it is written, into a buffer that just fits. quoted: the same, every field quoted."
    );
    println!("no room: the first text, into a buffer of 0 words; the answer is 12, after all other questions.");
    println!("write log: into a buffer that just fits the longest text.");
}
