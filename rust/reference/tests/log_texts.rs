//! Logs as comma-separated text: what is read and written, and questions 13 and 14.

use inputs::{decimal_log, good_log, good_table, spelled_text, Random, Spelling};
use reference::{check_log, log_of_text, read_log, text_of_log, write_log, Answer};

/// send (open), consent (complete), believes (its argument is an input, open).
const T: [i32; 9] = [3, 0, 0, 2, 0, 1, 1, 1, 0];

const A: [i32; 16] = [0, 1, 7, 9, 100, 0, 0, 0, 1, 1, 9, 50, 0, 0, 0, 0];

const A_TEXT: &str = "0,1,7,9,100\r\n1,1,9,50\r\n";

/// Reads with a buffer of so many words, full of other words at first.
fn read(text: &[u8], room: usize) -> (Answer, Vec<i32>) {
    let mut buffer = vec![-5; room];
    let answer = read_log(&T, text, &mut buffer);
    (answer, buffer)
}

/// Checks that a text has these rows: with a buffer that just fits, with more and with less.
#[track_caller]
fn gives(text: &str, log: &[i32]) {
    let accepted = Answer::accepted(log.len() / 8);
    assert_eq!(read(text.as_bytes(), log.len()), (accepted, log.to_vec()));
    let more = [log, &[0; 3]].concat();
    assert_eq!(read(text.as_bytes(), log.len() + 3), (accepted, more));
    if let Some(less) = log.len().checked_sub(1) {
        assert_eq!(read(text.as_bytes(), less), (Answer::refused(12, 0), vec![0; less]));
        assert_eq!(read(text.as_bytes(), 0), (Answer::refused(12, 0), vec![]));
    }
}

/// Checks that a text is refused, whatever the buffer, and leaves zeros.
#[track_caller]
fn refused(text: impl AsRef<[u8]>, number: u32, place: usize) {
    let text = text.as_ref();
    let answer = Answer::refused(number, place);
    assert_eq!(read(text, 40), (answer, vec![0; 40]), "{}", text.escape_ascii());
    assert_eq!(read(text, 0), (answer, vec![]), "{}", text.escape_ascii());
}

#[test]
fn logs_are_read() {
    gives("", &[]);
    gives("0,1,7,9,100\r\n", &A[..8]);
    gives("0,1,7,9,100", &A[..8]);
    gives(A_TEXT, &A);
    gives(A_TEXT.trim_end(), &A);
    gives("\"0\",\"1\",7,\"9\",100\r\n", &A[..8]);
    gives("\"0\",\"1\",\"7\",\"9\",\"100\"\r\n\"1\",\"1\",\"9\",\"50\"", &A);
    gives(
        "1,0,-2147483648,2147483647\r\n",
        &[1, 0, i32::MIN, i32::MAX, 0, 0, 0, 0],
    );
    gives("1,0,\"-1\",0\r\n", &[1, 0, -1, 0, 0, 0, 0, 0]);
}

#[test]
fn logs_are_written() {
    let written = |log: &[i32], room: usize| {
        let mut buffer = vec![b'x'; room];
        (write_log(&T, log, &mut buffer), buffer)
    };
    let length = A_TEXT.len();
    let accepted = Answer::accepted(length);
    assert_eq!(written(&A, length), (accepted, A_TEXT.into()));
    assert_eq!(
        written(&A, length + 2),
        (accepted, [A_TEXT.as_bytes(), &[0, 0]].concat())
    );
    assert_eq!(written(&A, length - 1), (Answer::refused(12, 0), vec![0; length - 1]));
    assert_eq!(written(&[], 0), (Answer::accepted(0), vec![]));
    assert_eq!(written(&[], 2), (Answer::accepted(0), vec![0; 2]));
    let ends = [1, 0, i32::MIN, i32::MAX, 0, 0, 0, 0, 2, 1, 0, 0, 0, 0, 0, 0];
    let text = b"1,0,-2147483648,2147483647\r\n2,1,0\r\n".to_vec();
    assert_eq!(written(&ends, text.len()), (Answer::accepted(text.len()), text));
    // A log that is refused leaves zeros, and question 12 comes last.
    for room in [0, 30] {
        let zeros = |number, place| (Answer::refused(number, place), vec![0; room]);
        assert_eq!(written(&A[..15], room), zeros(8, 0));
        assert_eq!(written(&[A, [3; 16]].concat(), room), zeros(9, 2));
        assert_eq!(written(&A.repeat(2), room), zeros(10, 2));
    }
    assert_eq!(write_log(&T[1..], &A, &mut [7; 9]), Answer::refused(1, 0));
}

#[test]
fn question_13() {
    refused("0,1,7,9,100\n", 13, 11);
    refused("0,1,7,9,100\r", 13, 12);
    refused("0,1,7,9,1\"0", 13, 9);
    refused("0,1,7,9,\"1\"0", 13, 11);
    refused("0,1,7,9,\"10", 13, 11);
    // Line ends.
    refused("\n", 13, 0);
    refused("\r", 13, 1);
    refused("\r\r\n", 13, 1);
    refused("0,1,7,9,100\r0", 13, 12);
    refused("0,1,7,9,100\r\r\n", 13, 12);
    refused("0,1,7,9,100\r\n\n", 13, 13);
    refused("0,1,7,9,100\r\n\r", 13, 14);
    refused("0,1,7,9,100\r\"", 13, 12);
    // Quotes.
    refused("\"", 13, 1);
    refused("\"\"\"", 13, 3);
    refused("\"\" ", 13, 2);
    refused(" \"\"", 13, 1);
    refused("\"0\"\n", 13, 3);
    refused("\"0\"\r", 13, 4);
    refused("\"0\"\"", 13, 4);
    refused("0,\"1", 13, 4);
    refused("0,\"\r\n", 13, 5);
    // Bytes that stand nowhere, not even between quotes. Those at the ends of the allowed range do.
    for byte in (0..=9).chain(11..=12).chain(14..=31).chain(127..=255) {
        refused([b'0', byte], 13, 1);
        refused([byte], 13, 0);
        refused([b'"', byte, b'"'], 13, 1);
        refused([b'"', b'"', byte], 13, 2);
    }
    refused(" ,~", 14, 0);
    refused("\" \",\"~\"", 14, 0);
    // Also behind a record that is no row, a repeated atom, or too many rows.
    refused("9\r\n0,1,7,9,100\n", 13, 14);
    refused("\r\n\"", 13, 3);
    refused("2,1,5\r\n2,0,5\r\n\x7f", 13, 14);
    let many = "2,1,5\r\n".repeat(5000);
    refused(many.clone() + "\n", 13, many.len());
}

#[test]
fn question_14_numbers() {
    let row = |argument: &str| format!("0,1,7,9,100\r\n2,1,{argument}\r\n");
    for number in [
        "0",
        "1",
        "-1",
        "9",
        "10",
        "-10",
        "1000000000",
        "2147483647",
        "-2147483648",
    ] {
        let word: i32 = number.parse().unwrap();
        let log = [&A[..8], &[2, 1, word, 0, 0, 0, 0, 0]].concat();
        gives(&row(number), &log);
        gives(&row(&format!("\"{number}\"")), &log);
    }
    for bad in [
        "",
        "-",
        "-0",
        "00",
        "07",
        "-07",
        "000",
        "+7",
        "+0",
        " 7",
        "7 ",
        " ",
        "--7",
        "7-",
        "7-8",
        "0x7",
        "7.0",
        "7e1",
        "a",
        "/",
        ":",
        "7/",
        "7:",
        "2147483648",
        "-2147483649",
        "4294967296",
        "4294967303",
        "-4294967289",
        "10000000000",
        "18446744073709551623",
        "340282366920938463463374607431768211463",
        "0000000000000000000000007",
    ] {
        refused(row(bad), 14, 1);
        refused(row(&format!("\"{bad}\"")), 14, 1);
    }
    // What only a quoted field can hold is no number.
    for bad in ["7,8", "7\r\n", "\r\n7", "7\r", "7\n", "\"\"7\"\"", "7\"\"", "\"\""] {
        refused(row(&format!("\"{bad}\"")), 14, 1);
    }
}

#[test]
fn question_14_records() {
    refused("\r\n", 14, 0);
    refused("0,1,7,9,100\r\n\r\n", 14, 1);
    refused("0,1,7,9,100\r\n\"\"", 14, 1);
    refused("\r\n\r\n", 14, 0);
    // Too few fields, or too many.
    for bad in [
        "0",
        "0,1",
        "0,1,7,9",
        "0,1,7,9,100,0",
        "0,1,7,9,100,",
        ",0,1,7,9,100",
        "2,1",
        "2,1,5,0",
    ] {
        refused(bad, 14, 0);
        refused(format!("{bad}\r\n"), 14, 0);
        refused(format!("{A_TEXT}{bad}\r\n{bad}\r\n"), 14, 2);
    }
    refused("0,1".to_owned() + &",0".repeat(1000), 14, 0);
    // Predicates and truths.
    for bad in [
        "3,1,5",
        "-1,1,5",
        "2147483647,1,5",
        "-2147483648,1,5",
        "2,2,5",
        "2,-1,5",
        "2,2147483647,5",
        "02,1,5",
    ] {
        refused(bad, 14, 0);
        refused(format!("2,1,5\r\n{bad}"), 14, 1);
    }
    // Arguments are as many as the arity, with six of them too.
    let six = [6, 0, 0];
    let answer = |text: &str| read_log(&six, text.as_bytes(), &mut [0; 8]);
    assert_eq!(answer("0,0,1,2,3,4,5,6"), Answer::accepted(1));
    assert_eq!(answer("0,0,1,2,3,4,5"), Answer::refused(14, 0));
    assert_eq!(answer("0,0,1,2,3,4,5,6,0"), Answer::refused(14, 0));
    // The first bad record is the place, also behind a repeated atom and behind the last row that a log may have.
    refused("2,1,5\r\n2,1,5\r\n2,2,5\r\n2,3,5\r\n", 14, 2);
    let many = "2,1,5\r\n".repeat(5000);
    refused(many.clone() + "2,1", 14, 5000);
    refused(many, 8, 0);
}

#[test]
fn questions_8_10_and_12() {
    let rows = |count: i32| (0..count).map(|x| format!("2,{},{x}\r\n", x % 2)).collect::<String>();
    let mut buffer = vec![-1; 8 * 4097];
    assert_eq!(read_log(&T, rows(4096).as_bytes(), &mut buffer), Answer::accepted(4096));
    assert_eq!(buffer[8 * 4095..], [2, 1, 4095, 0, 0, 0, 0, 0, 0, 0, 0, 0, 0, 0, 0, 0]);
    refused(rows(4097), 8, 0);
    refused(rows(4096), 12, 0);
    // The same atom with either truth, however it is spelled; the later row is the place.
    refused("2,1,5\r\n2,1,5\r\n", 10, 1);
    refused("2,1,5\r\n2,0,6\r\n\"2\",0,\"5\"", 10, 2);
    refused(rows(4095) + "2,0,0", 10, 4095);
    // Question 8 comes before 10, and 10 before 12.
    refused(rows(4096) + "2,0,0", 8, 0);
    gives(
        "2,1,5\r\n1,1,5,0\r\n1,1,0,5",
        &[2, 1, 5, 0, 0, 0, 0, 0, 1, 1, 5, 0, 0, 0, 0, 0, 1, 1, 0, 5, 0, 0, 0, 0],
    );
}

#[test]
fn question_1_comes_first() {
    for text in ["", "2,1,5", "\"", "\r\n"] {
        let mut buffer = [7; 9];
        assert_eq!(
            read_log(&[1, 0, 0, 7, 0, 0], text.as_bytes(), &mut buffer),
            Answer::refused(1, 1)
        );
        assert_eq!(buffer, [0; 9]);
    }
}

/// A log that is written and read again is the same log, however its text is spelled.
#[test]
fn written_and_read_again() {
    let random = &mut Random::new(0xF101);
    let mut rows = 0;
    for round in 0..3_000 {
        let table = good_table(random);
        let log = if round % 2 == 0 {
            decimal_log(random, &table, 20)
        } else {
            good_log(random, &table, 20, 4)
        };
        let count = log.len() / 8;
        assert_eq!(check_log(&table, &log), Answer::accepted(count));
        let text = text_of_log(&table, &log).unwrap();
        assert_eq!(text, spelled_text(random, &table, &log, Spelling::PLAIN));
        assert_eq!(log_of_text(&table, &text), Ok(log.clone()));
        let spelling = Spelling::any(random);
        let other = spelled_text(random, &table, &log, spelling);
        assert_eq!(log_of_text(&table, &other), Ok(log), "{}", other.escape_ascii());
        rows += count;
    }
    assert!(rows > 20_000);
}
