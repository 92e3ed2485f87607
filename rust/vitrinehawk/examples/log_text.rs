//! An audit of a log that another program exported as comma-separated text. An officer's answer is added as one more
//! row, and the log is written as text again.

use vitrinehawk::{audit, read_log, write_log, Refused, MOST_ROWS, ROW_WORDS};

/// send(sender, receiver, time), open; consent(patient, time), complete; believes(receiver), open, its argument an
/// input.
const TABLE: [i32; 9] = [3, 0, 0, 2, 0, 1, 1, 1, 0];

/// For all senders, receivers and times: if sent, then the receiver believes.
const POLICY: [i32; 17] = [8, 3, 0, 2, 0, 3, 1, 0, 1, 1, 1, 2, 2, 2, 1, 1, 1];

/// 7 sent to 9 at time 100, and for 9 there is consent from time 50 on; predicate and truth come first. This program
/// quotes all fields and does not end its last line.
const EXPORT: &str = "\"0\",\"1\",\"7\",\"9\",\"100\"\r\n\"1\",\"1\",\"9\",\"50\"";

fn main() -> Result<(), Refused> {
    let mut log = vec![0; MOST_ROWS * ROW_WORDS];
    let rows = read_log(&TABLE, EXPORT.as_bytes(), &mut log)?;
    log.truncate(rows * ROW_WORDS);
    let residual = audit(&TABLE, &POLICY, &log, 10_000)?;
    println!("{rows} rows read, a residual of {} words", residual.len());

    // An officer asks 9, who does believe.
    log.extend([2, 1, 9, 0, 0, 0, 0, 0]);
    let residual = audit(&TABLE, &residual, &log, 10_000)?;
    let mut text = vec![0; 1_000];
    let bytes = write_log(&TABLE, &log, &mut text)?;
    println!("With the answer, a residual of {} words. The log now:", residual.len());
    print!("{}", String::from_utf8_lossy(&text[..bytes]));

    // What was not exported well is refused with its place.
    let zero_in_front = read_log(&TABLE, b"0,1,7,9,100\r\n1,1,09,50\r\n", &mut log);
    println!("{}", zero_in_front.expect_err("a leading zero"));
    Ok(())
}
