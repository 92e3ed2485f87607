//! A policy that another program wrote in the TPTP typed form: it is read and audited, and its residual is written for
//! a prover, behind the declarations of the predicates.

use vitrinehawk::{audit, declarations, read_policy, write_policy, Refused};

/// send(sender, receiver, time), open; consent(patient, time), complete; believes(receiver), open, its argument an
/// input.
const TABLE: [i32; 9] = [3, 0, 0, 2, 0, 1, 1, 1, 0];

/// For all senders, receivers and times: if sent, then the receiver believes, or consented before.
const POLICY: &str = "\
tff(every_sending, axiom,
    ! [X0: $int, X1: $int, X2: $int]:
        ( p0(X0, X1, X2)
       => ( p2(X1)
          | ? [X3: $int]: (p1(X1, X3) & $lesseq($sum(X3, 1), X2))))).
";

/// 7 sent to 9 at time 100, and to 8 at 120. 8 consented at time 50.
const LOG: [i32; 24] = [
    0, 1, 7, 9, 100, 0, 0, 0, 0, 1, 7, 8, 120, 0, 0, 0, 1, 1, 8, 50, 0, 0, 0, 0,
];

fn main() -> Result<(), Refused> {
    let mut policy = vec![0; POLICY.len()];
    let words = read_policy(&TABLE, POLICY.as_bytes(), &mut policy)?;
    policy.truncate(words);

    // The log decides the second sending.
    let residual = audit(&TABLE, &policy, &LOG, 10_000)?;
    let mut text = vec![0; 18 * residual.len() + 14];
    let bytes = write_policy(&TABLE, &residual, &mut text)?;
    println!("% A policy of {words} words, a residual of {}.", residual.len());
    print!("{}", declarations(&TABLE));
    println!("{}", String::from_utf8_lossy(&text[..bytes]));

    // A text that is not one is refused with its place.
    let mixed = read_policy(&TABLE, b"tff(a,axiom,p2(1)&p2(2)|p2(3)).", &mut policy);
    println!("% {}", mixed.expect_err("two connectives"));
    Ok(())
}
