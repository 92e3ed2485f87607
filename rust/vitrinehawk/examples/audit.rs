//! An audit in two rounds: first with what the log knows, then with an officer's answer as one more row.

use vitrinehawk::{audit, Refused};

/// send(sender, receiver, time), open; consent(patient, time), complete; believes(receiver), open, its argument an
/// input.
const TABLE: [i32; 9] = [3, 0, 0, 2, 0, 1, 1, 1, 0];

/// Words enough for small audits.
const MOST_WORDS: usize = 100_000;

fn main() -> Result<(), Refused> {
    // For all senders, receivers and times: if sent, then the receiver had consent by then, or believes that it may.
    let sent = [2, 0, 3, 1, 0, 1, 1, 1, 2];
    let consent = [9, 1, 0, 2, 1, 2, 1, 1, 1, 3, 4, 0, 1, 3, 1, 2];
    let believes = [2, 2, 1, 1, 1];
    let policy = [&[8, 3, 0], &sent[..], &[7, 2], &consent, &believes].concat();

    // 7 sent to 9 at time 100, and to 8 at 120. For 9 there is consent from time 50 on.
    let mut log = vec![0, 1, 7, 9, 100, 0, 0, 0];
    log.extend([0, 1, 7, 8, 120, 0, 0, 0]);
    log.extend([1, 1, 9, 50, 0, 0, 0, 0]);

    let residual = audit(&TABLE, &policy, &log, MOST_WORDS)?;
    println!("The log decides the first sending. Left, all of:");
    print_left(&residual);

    // An officer asks 8, who does believe.
    log.extend([2, 1, 8, 0, 0, 0, 0, 0]);
    let residual = audit(&TABLE, &residual, &log, MOST_WORDS)?;
    println!("With the officer's answer, left:");
    print_left(&residual);
    Ok(())
}

/// Prints the atoms that the officers have to judge, and the sendings that were worked already.
fn print_left(residual: &[i32]) {
    match residual {
        [6, 2, rest @ ..] => {
            let (atom, quantifier) = rest.split_at(5);
            println!("- does {} believe? (words {atom:?})", atom[4]);
            print_left(quantifier);
        }
        [8, 3, tuples, rest @ ..] => {
            let worked = rest[..3 * *tuples as usize].chunks(3);
            let worked: Vec<String> = worked.map(|tuple| format!("{tuple:?}")).collect();
            println!("- any sending that comes to light, other than {}", worked.join(", "));
        }
        words => println!("- {words:?}"),
    }
}
