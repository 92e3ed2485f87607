//! Logs as comma-separated text: every word and byte of the buffers, and every refusal.

use vitrinehawk::{read_log, write_log, Refusal, Refused};

/// send (open), consent (complete), believes (its argument is an input, open).
const T: [i32; 9] = [3, 0, 0, 2, 0, 1, 1, 1, 0];

const A: [i32; 16] = [0, 1, 7, 9, 100, 0, 0, 0, 1, 1, 9, 50, 0, 0, 0, 0];

const A_TEXT: &str = "0,1,7,9,100\r\n1,1,9,50\r\n";

type Outcome = Result<usize, Refused>;

fn refusal(refusal: Refusal, place: usize) -> Outcome {
    Err(Refused { refusal, place })
}

/// Reads with a buffer of so many words, full of other words at first.
fn read(text: &[u8], room: usize) -> (Outcome, Vec<i32>) {
    let mut buffer = vec![-5; room];
    let outcome = read_log(&T, text, &mut buffer);
    (outcome, buffer)
}

/// Checks that a text has these rows: with a buffer that just fits, with more and with less.
#[track_caller]
fn gives(text: &str, log: &[i32]) {
    let (text, rows) = (text.as_bytes(), log.len() / 8);
    assert_eq!(read(text, log.len()), (Ok(rows), log.to_vec()));
    assert_eq!(read(text, log.len() + 3), (Ok(rows), [log, &[0; 3]].concat()));
    for less in 0..log.len() {
        assert_eq!(read(text, less), (refusal(Refusal::Room, 0), vec![0; less]));
    }
}

/// Checks that a text is refused, whatever the buffer, and leaves zeros.
#[track_caller]
fn is_refused(text: impl AsRef<[u8]>, number: Refusal, place: usize) {
    let text = text.as_ref();
    for room in [40, 8, 1, 0] {
        let outcome = (refusal(number, place), vec![0; room]);
        assert_eq!(read(text, room), outcome, "{}", text.escape_ascii());
    }
}

#[test]
fn rows() {
    gives("", &[]);
    gives("0,1,7,9,100\r\n", &A[..8]);
    gives("0,1,7,9,100", &A[..8]);
    gives(A_TEXT, &A);
    gives("\"0\",\"1\",7,\"9\",100\r\n", &A[..8]);
    gives("\"0\",\"1\",\"7\",\"9\",\"100\"\r\n\"1\",\"1\",\"9\",\"50\"", &A);
    let ends = [1, 0, i32::MIN, i32::MAX, 0, 0, 0, 0];
    gives("1,0,-2147483648,2147483647\r\n", &ends);
    gives("2,1,-1\r\n2,0,0", &[2, 1, -1, 0, 0, 0, 0, 0, 2, 0, 0, 0, 0, 0, 0, 0]);
}

#[test]
fn texts_that_are_not_allowed() {
    is_refused("0,1,7,9,100\n", Refusal::Csv, 11);
    is_refused("0,1,7,9,100\r", Refusal::Csv, 12);
    is_refused("0,1,7,9,1\"0", Refusal::Csv, 9);
    is_refused("0,1,7,9,\"1\"0", Refusal::Csv, 11);
    is_refused("0,1,7,9,\"10", Refusal::Csv, 11);
    is_refused("0,1,7,9,100\r\r\n", Refusal::Csv, 12);
    is_refused("0,1,7,9,\"1\"\"", Refusal::Csv, 12);
    for byte in [0, 9, 11, 31, 127, 128, 255] {
        is_refused([&b"0,1,7,9,100"[..], &[byte]].concat(), Refusal::Csv, 11);
        is_refused([&b"0,1,7,9,\"10"[..], &[byte], b"\""].concat(), Refusal::Csv, 11);
    }
    // The whole text is looked at before any record.
    is_refused("9,9,9\r\n2,1,5\r\n2,1,5\r\n2,1,5\n", Refusal::Csv, 26);
}

/// Bytes of 128 and above, bare and in quotes; a CR or LF alone in quotes is allowed, and no number.
#[test]
fn bytes_that_stand_alone() {
    is_refused(b"0,1,7,9,\x80", Refusal::Csv, 8);
    is_refused(b"0,1,7,9,\"\x80\"", Refusal::Csv, 9);
    is_refused(b"0,1,7,9,1\xff", Refusal::Csv, 9);
    is_refused(b"0,1,7,9,\"1\xff\"", Refusal::Csv, 10);
    is_refused(b"2,1,\"\r\"", Refusal::Record, 0);
    is_refused(b"2,1,\"1\n\"", Refusal::Record, 0);
    is_refused("2,1,1\r\n".repeat(4097), Refusal::LogLength, 0);
}

#[test]
fn records_that_are_no_rows() {
    is_refused("\r\n", Refusal::Record, 0);
    is_refused("0,1,7,9,100\r\n\r\n", Refusal::Record, 1);
    is_refused("0,1,7,9,100\r\n\"\"", Refusal::Record, 1);
    for bad in [
        "-0",
        "00",
        "07",
        "+7",
        " 7",
        "7 ",
        "",
        "-",
        "2147483648",
        "-2147483649",
        "4294967303",
    ] {
        is_refused(format!("2,1,{bad}\r\n"), Refusal::Record, 0);
        is_refused(format!("{A_TEXT}2,1,\"{bad}\""), Refusal::Record, 2);
    }
    for bad in [
        "0,1,7,9",
        "0,1,7,9,100,0",
        "0,1,7,9,100,",
        "2,2,5",
        "2,-1,5",
        "3,1,5",
        "-1,1,5",
        "2",
        "2,1",
    ] {
        is_refused(bad, Refusal::Record, 0);
        is_refused(format!("{A_TEXT}{bad}\r\n{bad}"), Refusal::Record, 2);
    }
    for bad in ["\"7,8\"", "\"7\r\n\"", "\"\"\"7\"\"\"", "\"\r\n\""] {
        is_refused(format!("2,1,{bad}"), Refusal::Record, 0);
    }
    // Every record is looked at before any atom.
    is_refused("2,1,5\r\n2,1,5\r\n2,1", Refusal::Record, 2);
}

#[test]
fn repeated_atoms() {
    is_refused("2,1,5\r\n2,1,5\r\n", Refusal::Repeat, 1);
    is_refused("2,1,5\r\n2,1,6\r\n\"2\",0,\"5\"", Refusal::Repeat, 2);
    is_refused(A_TEXT.repeat(2), Refusal::Repeat, 2);
}

#[test]
fn a_bad_table() {
    for text in ["", A_TEXT, "\"", "\r\n"] {
        let mut buffer = [7; 9];
        assert_eq!(
            read_log(&T[..8], text.as_bytes(), &mut buffer),
            refusal(Refusal::Table, 0)
        );
        assert_eq!(buffer, [0; 9]);
    }
    let mut buffer = [7; 9];
    assert_eq!(
        write_log(&[1, 0, 0, 7, 0, 0], &A, &mut buffer),
        refusal(Refusal::Table, 1)
    );
    assert_eq!(buffer, [0; 9]);
}

#[test]
fn written_texts() {
    let written = |log: &[i32], room: usize| {
        let mut buffer = vec![b'x'; room];
        (write_log(&T, log, &mut buffer), buffer)
    };
    let ends = [1, 0, i32::MIN, i32::MAX, 0, 0, 0, 0, 2, 1, -10, 0, 0, 0, 0, 0];
    let ends_text = "1,0,-2147483648,2147483647\r\n2,1,-10\r\n";
    for (log, text) in [(&A, A_TEXT), (&ends, ends_text)] {
        let length = text.len();
        assert_eq!(written(log, length), (Ok(length), text.into()));
        let more = [text.as_bytes(), &[0, 0]].concat();
        assert_eq!(written(log, length + 2), (Ok(length), more));
        for less in 0..length {
            assert_eq!(written(log, less), (refusal(Refusal::Room, 0), vec![0; less]));
        }
        gives(text, log);
    }
    assert_eq!(written(&[], 0), (Ok(0), vec![]));
    assert_eq!(written(&[], 2), (Ok(0), vec![0; 2]));
    for room in [0, 40] {
        assert_eq!(written(&A[1..], room), (refusal(Refusal::LogLength, 0), vec![0; room]));
        let bad = [&A[..], &[2, 1, 5, 0, 0, 0, 0, 1]].concat();
        assert_eq!(written(&bad, room), (refusal(Refusal::Row, 2), vec![0; room]));
        assert_eq!(
            written(&A.repeat(2), room),
            (refusal(Refusal::Repeat, 2), vec![0; room])
        );
    }
}
