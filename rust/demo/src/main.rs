//! An audit on a small hospital example, in three rounds, printed for a person.

mod decide;
mod log;
mod names;
mod policy;
mod report;
mod show;
mod tree;

use decide::{decide, residual, sendings, Decision, Sending};
use log::ROW;
use names::table;
use policy::policy;
use std::error::Error;
use std::io::{self, ErrorKind, Write};
use tree::Node;
use vitrinehawk::{check_log, check_policy, Refused};

fn main() -> Result<(), Box<dyn Error>> {
    let text = story()?.join("\n") + "\n";
    match io::stdout().write_all(text.as_bytes()) {
        // The reader has seen enough.
        Err(error) if error.kind() == ErrorKind::BrokenPipe => Ok(()),
        written => Ok(written?),
    }
}

/// The lines to print.
fn story() -> Result<Vec<String>, Refused> {
    let policy = policy();
    let words = policy.words();
    let level = check_policy(&table(), &words)?;
    let length = words.len();
    let mut lines = report::predicate_lines();
    lines.push(format!(
        "\nPOLICY (checked: accepted, {length} words, greatest level {level})"
    ));
    lines.extend(report::policy_lines(&policy));

    let mut shown = 0;
    let mut decided = Vec::new();
    for (round, title) in rounds(&policy)?.iter().zip(TITLES) {
        let rows = check_log(&table(), &round.log)?;
        let new_rows = report::row_lines(&round.log, shown);
        if shown == 0 {
            lines.push(format!("\nLOG (checked: accepted, {rows} rows)"));
            lines.extend(new_rows);
            lines.push(format!("\n{title}"));
        } else {
            lines.push(format!("\n{title} (log accepted, {rows} rows)"));
            lines.extend(new_rows);
        }
        shown = rows;
        lines.extend(round_lines(round, &mut decided));
    }
    Ok(lines)
}

const TITLES: [&str; 3] = [
    "ROUND 1: the policy, over the log as it stands",
    "ROUND 2: the residual of round 1, after Adler's answer and a sending found",
    "ROUND 3: the residual of round 2, after Huber's answer, a no",
];

/// A round of the audit.
struct Round {
    /// All rows so far.
    log: Vec<i32>,
    /// What is left of the policy.
    residual: Node,
    /// What is decided of each sending.
    decisions: Vec<(Sending, Decision)>,
}

/// Three rounds: each reduces the residual of the one before over a longer log.
fn rounds(policy: &Node) -> Result<Vec<Round>, Refused> {
    let mut rounds = Vec::new();
    let mut held = policy.clone();
    let mut log = Vec::new();
    for rows in [log::first(), log::second(), log::third()] {
        log.extend(rows);
        held = residual(&held, &log)?;
        let decisions = sendings(&log).into_iter().map(|sending| {
            let decision = decide(policy, &sending, &log)?;
            Ok((sending, decision))
        });
        rounds.push(Round {
            decisions: decisions.collect::<Result<_, _>>()?,
            residual: held.clone(),
            log: log.clone(),
        });
    }
    Ok(rounds)
}

/// What a round decides beyond the rows decided so far, and what it leaves.
fn round_lines(round: &Round, decided: &mut Vec<usize>) -> Vec<String> {
    let mut lines = vec!["  Sendings:".to_string()];
    if !decided.is_empty() {
        lines[0] = format!("  Sendings, but for {} permitted before:", decided.len());
    }
    let mut violations = Vec::new();
    for (Sending { row, .. }, decision) in &round.decisions {
        if decided.contains(row) {
            continue;
        }
        let words = &round.log[ROW * row..][..ROW];
        lines.extend(report::decision_lines(words, decision, &round.residual));
        match decision {
            Decision::Permitted { .. } => decided.push(*row),
            Decision::Violation(_) => violations.push(show::line(&log::fact(words))),
            Decision::Left { .. } => {}
        }
    }
    lines.extend(report::left_lines(&round.residual, &violations));
    lines
}

#[cfg(test)]
mod tests {
    use super::*;
    use decide::Failure;
    use names::*;
    use tree::Term;

    const LINDT_SENT: [i32; 4] = [HUBER, ADLER, LINDT, 10];
    const WEISS_SENT: [i32; 4] = [HUBER, RUIZ, WEISS, 12];
    const OKAFOR_SENT: [i32; 4] = [HUBER, KERN, OKAFOR, 14];
    const MOREAU_SENT: [i32; 4] = [HUBER, ADLER, MOREAU, 15];
    const WEISS_SENT_LATER: [i32; 4] = [BRANDT, RUIZ, WEISS, 16];

    fn three_rounds() -> [Round; 3] {
        let rounds = rounds(&policy()).expect("accepted");
        rounds.try_into().unwrap_or_else(|_| panic!("three rounds"))
    }

    fn decided(round: &Round) -> Vec<(&[i32], &Decision)> {
        let decisions = round.decisions.iter();
        decisions
            .map(|(sending, decision)| (&sending.tuple[..], decision))
            .collect()
    }

    /// Rows are counted from 1.
    fn permitted(norm: usize, rows: &[usize]) -> Decision {
        let rows = rows.iter().map(|row| row - 1).collect();
        Decision::Permitted { norm, rows }
    }

    fn ground(predicate: usize, arguments: &[i32]) -> Node {
        Node::Atom {
            holds: true,
            predicate,
            terms: arguments.iter().map(|number| Term::Constant(*number)).collect(),
        }
    }

    fn all_of(children: &[Node]) -> Node {
        let children = children.to_vec();
        Node::Join { all: true, children }
    }

    /// The policy for other sendings than these.
    fn others(sendings: &[[i32; 4]]) -> Node {
        let Node::Quantifier { restriction, body, .. } = policy() else {
            panic!("the policy is a for-all");
        };
        Node::Quantifier {
            all: true,
            variables: 4,
            excluded: sendings.iter().map(|tuple| tuple.to_vec()).collect(),
            restriction,
            body,
        }
    }

    #[test]
    fn the_first_round_leaves_two_sendings_and_the_for_all() {
        let [round, ..] = three_rounds();
        let okafor = ground(BELIEVED_NECESSARY, &OKAFOR_SENT);
        let judged = [FOR_TREATMENT, BELIEVED_NECESSARY];
        let moreau = Node::Join {
            all: false,
            children: judged.map(|predicate| ground(predicate, &MOREAU_SENT)).to_vec(),
        };
        let left = |residual: &Node, failed: &[usize]| Decision::Left {
            residual: residual.clone(),
            failed: failed.to_vec(),
        };
        let expected = [
            (&LINDT_SENT[..], &permitted(0, &[1, 9])),
            (&WEISS_SENT, &permitted(1, &[6])),
            (&OKAFOR_SENT, &left(&okafor, &[0, 1])),
            (&MOREAU_SENT, &left(&moreau, &[1])),
        ];
        assert_eq!(decided(&round), expected);
        let others = others(&[LINDT_SENT, WEISS_SENT, OKAFOR_SENT, MOREAU_SENT]);
        assert_eq!(round.residual, all_of(&[okafor, moreau, others]));
    }

    #[test]
    fn the_second_round_leaves_one_sending_and_the_for_all() {
        let [_, round, _] = three_rounds();
        let okafor = ground(BELIEVED_NECESSARY, &OKAFOR_SENT);
        let left = Decision::Left {
            residual: okafor.clone(),
            failed: vec![0, 1],
        };
        let expected = [
            (&LINDT_SENT[..], &permitted(0, &[1, 9])),
            (&WEISS_SENT, &permitted(1, &[6])),
            (&OKAFOR_SENT, &left),
            (&MOREAU_SENT, &permitted(0, &[1, 13])),
            (&WEISS_SENT_LATER, &permitted(1, &[6])),
        ];
        assert_eq!(decided(&round), expected);
        let others = others(&[LINDT_SENT, WEISS_SENT, OKAFOR_SENT, MOREAU_SENT, WEISS_SENT_LATER]);
        assert_eq!(round.residual, all_of(&[okafor, others]));
    }

    #[test]
    fn the_third_round_has_one_violation_and_leaves_nothing() {
        let [.., round] = three_rounds();
        assert_eq!(round.residual, Node::Plain(false));
        let mut permitted = 0;
        let mut violations = Vec::new();
        for (tuple, decision) in decided(&round) {
            match decision {
                Decision::Permitted { .. } => permitted += 1,
                Decision::Violation(failures) => violations.push((tuple, failures)),
                Decision::Left { .. } => panic!("{tuple:?} is left"),
            }
        }
        assert_eq!(permitted, 4);
        let [(tuple, failures)] = violations[..] else {
            panic!("{violations:?}");
        };
        assert_eq!(tuple, OKAFOR_SENT);
        let Node::Quantifier { body, .. } = policy() else {
            panic!("the policy is a for-all");
        };
        let Node::Join { children: norms, .. } = body.put(tuple) else {
            panic!("its body is an any-of");
        };
        let because = |part: Node, row: Option<usize>| Failure { part, row };
        let expected = [
            because(ground(IN_ROLE, &[KERN, PHYSICIAN]), None),
            because(norms[1].clone(), None),
            because(ground(BELIEVED_NECESSARY, tuple), Some(14)),
        ];
        assert_eq!(failures[..], expected);
    }

    #[test]
    fn the_rounds_leave_what_one_audit_leaves() {
        let rounds = three_rounds();
        for round in &rounds {
            assert_eq!(residual(&policy(), &round.log), Ok(round.residual.clone()));
        }
        // Each log extends the one before.
        for pair in rounds.windows(2) {
            let more = pair[1].log.strip_prefix(&pair[0].log[..]).expect("the same rows first");
            assert!(more.chunks(ROW).all(|row| !PREDICATES[row[0] as usize].complete));
        }
    }
}
