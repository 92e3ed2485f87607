//! A safe wrapper over the auditor's static library.
//!
//! Tables, policies and logs are slices of signed 32-bit words. A table has three words a predicate (arity, mask of
//! input arguments, complete or not), a log eight words a row (predicate, truth, six arguments), a policy is one tree
//! in preorder.
//!
//! An audit writes the residual: the policy without what the log decides, which is what the officers still have to
//! judge.
//!
//! ```
//! use vitrinehawk::{audit, check_log, check_policy, Refusal, Refused};
//!
//! // send (open), consent (complete), believes (its argument is an input, open)
//! let table = [3, 0, 0, 2, 0, 1, 1, 1, 0];
//!
//! // For all senders, receivers and times: if sent, then the receiver believes.
//! let policy = [8, 3, 0, 2, 0, 3, 1, 0, 1, 1, 1, 2, 2, 2, 1, 1, 1];
//! assert_eq!(check_policy(&table, &policy)?, 3); // the greatest level
//!
//! // 7 sent to 9 at time 100.
//! let log = [0, 1, 7, 9, 100, 0, 0, 0];
//! assert_eq!(check_log(&table, &log)?, 1); // the number of rows
//!
//! // Left for the officers, all of: does 9 believe? And every other sending that may still come to light.
//! let residual = audit(&table, &policy, &log, 10_000)?;
//! let believes = [2, 2, 1, 0, 9];
//! let others = [8, 3, 1, 7, 9, 100, 2, 0, 3, 1, 0, 1, 1, 1, 2, 2, 2, 1, 1, 1];
//! assert_eq!(residual, [&[6, 2], &believes[..], &others].concat());
//!
//! // The answer comes as one more row; the residual is audited like any policy.
//! let answered = [0, 1, 7, 9, 100, 0, 0, 0, 2, 1, 9, 0, 0, 0, 0, 0];
//! assert_eq!(audit(&table, &residual, &answered, 10_000)?, others);
//!
//! // Here the variable has to be bound before the atom that takes it as an input.
//! let unbound = check_policy(&table, &[8, 1, 0, 2, 2, 1, 1, 0, 1]);
//! assert_eq!(unbound, Err(Refused { refusal: Refusal::Mode, place: 3 }));
//! # Ok::<(), Refused>(())
//! ```
//!
//! A log may come as comma-separated text (RFC 4180), a record for each row, and may be written so.
//!
//! ```
//! use vitrinehawk::{read_log, write_log, MOST_ROWS, ROW_WORDS};
//!
//! let table = [3, 0, 0, 2, 0, 1, 1, 1, 0];
//! let text = b"0,1,7,9,100\r\n\"1\",\"1\",\"9\",\"50\"";
//!
//! // No log has more rows.
//! let mut log = vec![0; MOST_ROWS * ROW_WORDS];
//! let rows = read_log(&table, text, &mut log)?;
//! log.truncate(rows * ROW_WORDS);
//! assert_eq!(log, [0, 1, 7, 9, 100, 0, 0, 0, 1, 1, 9, 50, 0, 0, 0, 0]);
//!
//! let mut buffer = [0; 100];
//! let bytes = write_log(&table, &log, &mut buffer)?;
//! assert_eq!(buffer[..bytes], *b"0,1,7,9,100\r\n1,1,9,50\r\n");
//! # Ok::<(), vitrinehawk::Refused>(())
//! ```
//!
//! A policy may come as text in the TPTP typed form, and may be written so, for provers and lawyers' tools.
//!
//! ```
//! use vitrinehawk::{declarations, read_policy, write_policy};
//!
//! let table = [3, 0, 0, 2, 0, 1, 1, 1, 0];
//! let text = b"tff(believes, axiom,
//!     ! [X0: $int, X1: $int, X2: $int]: (p0(X0, X1, X2) => p2(X1))).";
//!
//! // No text has more words than bytes.
//! let mut policy = vec![0; text.len()];
//! let words = read_policy(&table, text, &mut policy)?;
//! policy.truncate(words);
//! assert_eq!(policy, [8, 3, 0, 2, 0, 3, 1, 0, 1, 1, 1, 2, 2, 2, 1, 1, 1]);
//!
//! let mut buffer = [0; 100];
//! let bytes = write_policy(&table, &policy, &mut buffer)?;
//! let written = b"tff(a,axiom,![X0:$int,X1:$int,X2:$int]:(p0(X0,X1,X2)=>p2(X1))).";
//! assert_eq!(buffer[..bytes], *written);
//!
//! // What a prover has to be told first.
//! assert!(declarations(&table).starts_with("tff(p0,type,p0:($int*$int*$int)>$o).\n"));
//! # Ok::<(), vitrinehawk::Refused>(())
//! ```

mod audit;
mod declarations;
mod ffi;
mod refusal;

/// The examples of the project's README are compiled and run.
#[cfg(doctest)]
#[doc = include_str!("../../../README.md")]
mod readme {}

pub use audit::audit;
pub use declarations::declarations;
pub use refusal::{Refusal, Refused};

/// The greatest number of words of a policy, a residual or a dual.
pub const MOST_WORDS: usize = 1_048_576;

/// The words of one place of scratch.
pub const PLACE_WORDS: usize = 17;

/// The greatest number of rows of a log.
pub const MOST_ROWS: usize = 4_096;

/// The words of a log's row.
pub const ROW_WORDS: usize = 8;

/// Checks a policy (questions 1 to 7) and returns its greatest level.
///
/// # Errors
///
/// The first question answered with "no", and where.
pub fn check_policy(table: &[i32], policy: &[i32]) -> Result<usize, Refused> {
    result(ffi::check_policy(table, policy))
}

/// Checks a log (questions 1 and 8 to 10) and returns the number of its rows.
///
/// # Errors
///
/// The first question answered with "no", and where.
pub fn check_log(table: &[i32], log: &[i32]) -> Result<usize, Refused> {
    result(ffi::check_log(table, log))
}

/// Writes the dual of a policy to the front of a buffer (questions 1 to 7 and 12) and returns its length.
///
/// The dual is true where the policy is false, false where it is true. All of the buffer is written: behind the dual
/// it has zeros, and if the call is refused zeros only.
///
/// ```
/// let table = [3, 0, 0, 2, 0, 1, 1, 1, 0];
/// let policy = [8, 3, 0, 2, 0, 3, 1, 0, 1, 1, 1, 2, 2, 2, 1, 1, 1];
/// let mut buffer = [0; 20];
/// let length = vitrinehawk::dual(&table, &policy, &mut buffer)?;
/// assert_eq!(buffer[..length], [9, 3, 0, 2, 0, 3, 1, 0, 1, 1, 1, 2, 3, 2, 1, 1, 1]);
/// # Ok::<(), vitrinehawk::Refused>(())
/// ```
///
/// # Errors
///
/// The first question answered with "no", and where.
pub fn dual(table: &[i32], policy: &[i32], buffer: &mut [i32]) -> Result<usize, Refused> {
    written(ffi::dual(table, policy, buffer), buffer.len())
}

/// Writes the residual of a policy over a log to the front of a buffer (questions 1 to 12) and returns its length.
///
/// All of the buffer is written: behind the residual it has zeros, and if the call is refused zeros only. Scratch is
/// room to work in, [`PLACE_WORDS`] words a place; what stands in it makes no difference, and afterwards it is zero.
/// [`audit`] finds out by itself how much of both is needed.
///
/// ```
/// use vitrinehawk::{reduce, Refusal};
///
/// let table = [3, 0, 0, 2, 0, 1, 1, 1, 0];
/// let policy = [8, 3, 0, 2, 0, 3, 1, 0, 1, 1, 1, 2, 2, 2, 1, 1, 1];
/// let log = [0, 1, 7, 9, 100, 0, 0, 0];
/// let (mut scratch, mut buffer) = ([0; 34], [0; 27]);
/// assert_eq!(reduce(&table, &policy, &log, &mut scratch, &mut buffer), Ok(27));
/// let refused = reduce(&table, &policy, &log, &mut scratch[1..], &mut buffer).unwrap_err();
/// assert_eq!(refused.refusal, Refusal::Scratch);
/// ```
///
/// # Errors
///
/// The first question answered with "no", and where.
pub fn reduce(
    table: &[i32],
    policy: &[i32],
    log: &[i32],
    scratch: &mut [i32],
    buffer: &mut [i32],
) -> Result<usize, Refused> {
    written(ffi::reduce(table, policy, log, scratch, buffer), buffer.len())
}

/// Reads a log from comma-separated text, writes its words to the front of a buffer (questions 1, 13, 14, 8, 10 and 12)
/// and returns the number of its rows, [`ROW_WORDS`] words each.
///
/// The text is one that RFC 4180 allows, without a header, a record for each row: predicate, truth, and as many
/// arguments as the predicate's arity, in decimal. Fields may be quoted, and the last line may lack its end. All of the
/// buffer is written: behind the rows it has zeros, and if the call is refused zeros only.
///
/// ```
/// use vitrinehawk::{read_log, Refusal, Refused};
///
/// let table = [3, 0, 0, 2, 0, 1, 1, 1, 0];
/// let mut buffer = [0; 16];
/// assert_eq!(read_log(&table, b"0,1,7,9,100\r\n\"2\",\"0\",\"-5\"\r\n", &mut buffer), Ok(2));
/// assert_eq!(buffer, [0, 1, 7, 9, 100, 0, 0, 0, 2, 0, -5, 0, 0, 0, 0, 0]);
///
/// // A line ends in CRLF, not in LF alone. A number has no leading zero.
/// let line_end = read_log(&table, b"0,1,7,9,100\n", &mut buffer);
/// assert_eq!(line_end, Err(Refused { refusal: Refusal::Csv, place: 11 }));
/// let zero = read_log(&table, b"0,1,7,9,100\r\n2,1,05\r\n", &mut buffer);
/// assert_eq!(zero, Err(Refused { refusal: Refusal::Record, place: 1 }));
/// ```
///
/// # Errors
///
/// The first question answered with "no", and where.
pub fn read_log(table: &[i32], text: &[u8], buffer: &mut [i32]) -> Result<usize, Refused> {
    rows_written(ffi::read_log(table, text, buffer), text.len(), buffer.len())
}

/// Writes a log as comma-separated text to the front of a buffer (questions 1, 8 to 10 and 12) and returns the number
/// of bytes.
///
/// Nothing is quoted, and each line ends in CRLF, the last one too. [`read_log`] reads the same log from it. All of the
/// buffer is written: behind the text it has zeros, and if the call is refused zeros only.
///
/// ```
/// use vitrinehawk::{write_log, Refusal};
///
/// let table = [3, 0, 0, 2, 0, 1, 1, 1, 0];
/// let log = [0, 1, 7, 9, 100, 0, 0, 0, 2, 0, -5, 0, 0, 0, 0, 0];
/// let mut buffer = [0; 21];
/// assert_eq!(write_log(&table, &log, &mut buffer), Ok(21));
/// assert_eq!(buffer, *b"0,1,7,9,100\r\n2,0,-5\r\n");
/// assert_eq!(write_log(&table, &log, &mut buffer[1..]).unwrap_err().refusal, Refusal::Room);
/// ```
///
/// # Errors
///
/// The first question answered with "no", and where.
pub fn write_log(table: &[i32], log: &[i32], buffer: &mut [u8]) -> Result<usize, Refused> {
    written(ffi::write_log(table, log, buffer), buffer.len())
}

/// Reads a policy from text in the TPTP typed form, writes its words to the front of a buffer (questions 1, 15, 2 to 7
/// and 12) and returns their number.
///
/// The text is one axiom with any name, and blanks and line ends may stand between its tokens. Question 4 is asked of
/// its parentheses too, of which at most 256 are open at once; all other places of questions 2 to 7 are places in the
/// words. No text has more words than bytes. All of the buffer is written: behind the policy it has zeros, and if the
/// call is refused zeros only.
///
/// ```
/// use vitrinehawk::{read_policy, Refusal, Refused};
///
/// let table = [3, 0, 0, 2, 0, 1, 1, 1, 0];
/// let mut buffer = [0; 16];
/// let exists = b"tff(by_100, axiom, ?[X0:$int]: (p1(9,X0) & $lesseq($sum(X0,0),100))).";
/// assert_eq!(read_policy(&table, exists, &mut buffer), Ok(16));
/// assert_eq!(buffer, [9, 1, 0, 2, 1, 2, 0, 9, 1, 0, 4, 0, 1, 0, 0, 100]);
///
/// // Connectives are not mixed without parentheses. The words are asked like those of any policy.
/// let mixed = read_policy(&table, b"tff(a,axiom,p2(1)&p2(2)|p2(3)).", &mut buffer);
/// assert_eq!(mixed, Err(Refused { refusal: Refusal::Tptp, place: 23 }));
/// let unbound = read_policy(&table, b"tff(a,axiom,![X0:$int]:(p2(X0)=>$true)).", &mut buffer);
/// assert_eq!(unbound, Err(Refused { refusal: Refusal::Mode, place: 3 }));
/// ```
///
/// # Errors
///
/// The first question answered with "no", and where.
pub fn read_policy(table: &[i32], text: &[u8], buffer: &mut [i32]) -> Result<usize, Refused> {
    words_read(ffi::read_policy(table, text, buffer), text.len(), buffer.len())
}

/// Writes a policy as text in the TPTP typed form to the front of a buffer (questions 1 to 7 and 12) and returns the
/// number of bytes.
///
/// Its name is `a`, and there are no blanks. [`read_policy`] reads the same policy from it. 18 bytes for each word and
/// 14 more are enough for every policy. All of the buffer is written: behind the text it has zeros, and if the call is
/// refused zeros only.
///
/// ```
/// use vitrinehawk::{write_policy, Refusal};
///
/// let table = [3, 0, 0, 2, 0, 1, 1, 1, 0];
/// // For all x other than 7 that consented at time 50: x does not believe, or x is at most 0.
/// let policy = [8, 1, 1, 7, 2, 1, 2, 1, 0, 0, 50, 7, 2, 3, 2, 1, 1, 0, 4, 0, 1, 0, 0, 0];
/// let text = b"tff(a,axiom,![X0:$int]:((p1(X0,50)&X0!=7)=>(~p2(X0)|$lesseq($sum(X0,0),0)))).";
/// let mut buffer = [0; 77];
/// assert_eq!(write_policy(&table, &policy, &mut buffer), Ok(77));
/// assert_eq!(buffer, *text);
/// assert_eq!(write_policy(&table, &policy, &mut buffer[1..]).unwrap_err().refusal, Refusal::Room);
/// ```
///
/// # Errors
///
/// The first question answered with "no", and where.
pub fn write_policy(table: &[i32], policy: &[i32], buffer: &mut [u8]) -> Result<usize, Refused> {
    text_written(ffi::write_policy(table, policy, buffer), buffer.len())
}

/// The count of an answer, or its refusal.
///
/// # Panics
///
/// If the library breaks its promise: numbers are 0 to 15, counts and places at most 1,048,576.
fn result(answer: ffi::Answer) -> Result<usize, Refused> {
    result_up_to(answer, MOST_WORDS)
}

/// The same for a call whose counts and places are at most so great.
fn result_up_to(answer: ffi::Answer, most: usize) -> Result<usize, Refused> {
    let ffi::Answer { number, detail } = answer;
    let detail = usize::try_from(detail).ok().filter(|detail| *detail <= most);
    let detail = detail.unwrap_or_else(|| panic!("no count and no place is {}", answer.detail));
    if number == 0 {
        return Ok(detail);
    }
    let refusal = Refusal::from_number(number).unwrap_or_else(|| panic!("no question has the number {number}"));
    Err(Refused { refusal, place: detail })
}

/// The same for a call that writes so many words or bytes to a buffer of so many.
///
/// # Panics
///
/// If the library breaks its promise: what is written is in the buffer.
fn written(answer: ffi::Answer, room: usize) -> Result<usize, Refused> {
    let length = result(answer)?;
    assert!(length <= room, "{length} do not fit the buffer");
    Ok(length)
}

/// The same for a call that reads a text of so many bytes and writes rows to a buffer of so many words.
///
/// # Panics
///
/// If the library breaks its promise: no place is behind the end of a long text, and the rows are in the buffer.
fn rows_written(answer: ffi::Answer, bytes: usize, room: usize) -> Result<usize, Refused> {
    let rows = result_up_to(answer, MOST_WORDS.max(bytes))?;
    assert!(rows <= room / ROW_WORDS, "{rows} rows do not fit the buffer");
    Ok(rows)
}

/// The same for a call that reads a text of so many bytes and writes words to a buffer of so many.
///
/// # Panics
///
/// If the library breaks its promise: no place is behind the end of a long text, and the words are in the buffer.
fn words_read(answer: ffi::Answer, bytes: usize, room: usize) -> Result<usize, Refused> {
    let words = result_up_to(answer, MOST_WORDS.max(bytes))?;
    assert!(words <= room, "{words} do not fit the buffer");
    Ok(words)
}

/// The same for a call that writes a text to a buffer of so many bytes.
///
/// # Panics
///
/// If the library breaks its promise: the text, which may be long, is in the buffer.
fn text_written(answer: ffi::Answer, room: usize) -> Result<usize, Refused> {
    let bytes = result_up_to(answer, MOST_WORDS.max(room))?;
    assert!(bytes <= room, "{bytes} do not fit the buffer");
    Ok(bytes)
}

#[cfg(test)]
mod tests {
    use super::*;

    fn answer(number: u32, detail: u64) -> ffi::Answer {
        ffi::Answer { number, detail }
    }

    #[test]
    fn a_detail_is_a_count_or_a_place() {
        assert_eq!(result(answer(0, 0)), Ok(0));
        assert_eq!(result(answer(0, 1_048_576)), Ok(1_048_576));
        for refusal in Refusal::ALL {
            let place = 1_048_576;
            assert_eq!(
                result(answer(refusal.number(), 1_048_576)),
                Err(Refused { refusal, place })
            );
        }
    }

    #[test]
    #[should_panic(expected = "no question has the number 16")]
    fn a_sixteenth_refusal_is_none() {
        let _ = result(answer(16, 0));
    }

    #[test]
    #[should_panic(expected = "no count and no place is 18446744073709551615")]
    fn a_detail_has_a_limit() {
        let _ = result(answer(0, u64::MAX));
    }

    #[test]
    #[should_panic(expected = "no count and no place is 1048577")]
    fn a_detail_is_at_most_so_great() {
        let _ = result(answer(3, 1_048_577));
    }

    #[test]
    #[should_panic(expected = "3 do not fit the buffer")]
    fn what_is_written_is_in_the_buffer() {
        assert_eq!(written(answer(0, 2), 2), Ok(2));
        let _ = written(answer(0, 3), 2);
    }

    #[test]
    #[should_panic(expected = "3 rows do not fit the buffer")]
    fn rows_are_in_the_buffer() {
        assert_eq!(rows_written(answer(0, 2), 12, 16), Ok(2));
        assert_eq!(rows_written(answer(0, 2), 12, 23), Ok(2));
        let _ = rows_written(answer(0, 3), 18, 23);
    }

    #[test]
    #[should_panic(expected = "no count and no place is 2000001")]
    fn a_place_in_a_long_text_is_at_most_its_length() {
        for (number, refusal) in [(13, Refusal::Csv), (14, Refusal::Record)] {
            let place = 2_000_000;
            assert_eq!(
                rows_written(answer(number, 2_000_000), place, 0),
                Err(Refused { refusal, place })
            );
        }
        let _ = rows_written(answer(13, 2_000_001), 2_000_000, 0);
    }

    #[test]
    #[should_panic(expected = "3 do not fit the buffer")]
    fn words_of_a_text_are_in_the_buffer() {
        let (refusal, place) = (Refusal::Tptp, 2_000_000);
        assert_eq!(
            words_read(answer(15, 2_000_000), place, 0),
            Err(Refused { refusal, place })
        );
        assert_eq!(words_read(answer(0, 2), 20, 2), Ok(2));
        let _ = words_read(answer(0, 3), 20, 2);
    }

    #[test]
    #[should_panic(expected = "no count and no place is 2000001")]
    fn a_long_text_is_in_the_buffer() {
        assert_eq!(text_written(answer(0, 2_000_000), 2_000_000), Ok(2_000_000));
        let _ = text_written(answer(0, 2_000_001), 2_000_000);
    }

    #[test]
    fn refusals_are_described() {
        let refused = Refused {
            refusal: Refusal::Mode,
            place: 3,
        };
        assert_eq!(
            refused.to_string(),
            "refused by question 7 at 3: the mode rule is broken"
        );
        assert!(Refusal::ALL
            .iter()
            .zip(1..)
            .all(|(refusal, number)| refusal.number() == number));
    }
}
