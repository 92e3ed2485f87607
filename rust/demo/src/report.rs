//! The text for a person: predicates, policy, rows, what is decided and what is left.

use crate::decide::{open_predicates, parts, Decision, Failure};
use crate::log::{fact, ROW};
use crate::names::{Argument, Predicate, PREDICATES};
use crate::policy::NORMS;
use crate::show;
use crate::tree::Node;

/// The predicates by name, and what open and complete mean.
pub fn predicate_lines() -> Vec<String> {
    let mut lines = vec!["PREDICATES (+ marks an input: in a restriction it has to be bound before)".to_string()];
    for predicate in &PREDICATES {
        let kind = if predicate.complete { "complete" } else { "open" };
        lines.push(format!(
            "  {:<55} {kind:<9} {}",
            signature(predicate),
            predicate.meaning
        ));
    }
    lines.push("  complete: an atom with no row is false".to_string());
    lines.push("  open: an atom with no row is open, as it may turn out to be true or false".to_string());
    lines
}

fn signature(predicate: &Predicate) -> String {
    let argument = |argument: &Argument| format!("{}{}", if argument.input { "+" } else { "" }, argument.name);
    let arguments: Vec<String> = predicate.arguments.iter().map(argument).collect();
    format!("{}({})", predicate.name, arguments.join(", "))
}

/// The policy, and the names of its norms.
pub fn policy_lines(policy: &Node) -> Vec<String> {
    let mut lines = show::lines(policy, 2, "");
    lines.push(format!(
        "  The norms under any-of, in this order: {}.",
        NORMS.join(", ")
    ));
    lines
}

/// The rows of a log from one on, counted from 1.
pub fn row_lines(log: &[i32], from: usize) -> Vec<String> {
    let rows = log.chunks(ROW).enumerate().skip(from);
    let line = |(row, words): (usize, &[i32])| format!("  row {:>2}: {}", row + 1, show::line(&fact(words)));
    rows.map(line).collect()
}

/// What a log decides of the sending in a row.
pub fn decision_lines(row: &[i32], decision: &Decision, residual: &Node) -> Vec<String> {
    let verdict = match decision {
        Decision::Permitted { norm, rows } => {
            let numbers: Vec<String> = rows.iter().map(|row| (row + 1).to_string()).collect();
            let rows = if rows.len() == 1 { "row" } else { "rows" };
            format!("permitted by {} ({rows} {})", NORMS[*norm], numbers.join(" and "))
        }
        Decision::Violation(_) => "a VIOLATION".to_string(),
        Decision::Left { residual: own, failed } => {
            let part = parts(residual).iter().position(|part| part == own);
            let see = part.map_or(String::new(), |part| format!(", see {}", part + 1));
            let failed: Vec<&str> = failed.iter().map(|norm| NORMS[*norm]).collect();
            let fail = match failed.len() {
                0 => String::new(),
                1 => format!(" ({} fails)", failed[0]),
                _ => format!(" ({} fail)", failed.join(" and ")),
            };
            format!("left{see}{fail}")
        }
    };
    let mut lines = vec![format!("    {}: {verdict}", show::line(&fact(row)))];
    if let Decision::Violation(failures) = decision {
        let failures = NORMS.iter().zip(failures);
        lines.extend(failures.map(|(norm, failure)| format!("      {norm} fails: {}", reason(failure))));
    }
    lines
}

/// Why a norm fails.
fn reason(failure: &Failure) -> String {
    let text = show::line(&failure.part);
    match (&failure.part, failure.row) {
        (_, Some(row)) => format!("row {} denies {text}", row + 1),
        (Node::Atom { predicate, .. }, None) => {
            format!("no row has {text}, and {} is complete", PREDICATES[*predicate].name)
        }
        (_, None) => format!("\"{text}\" is false"),
    }
}

/// What is left of the policy, and why. If that is plain false, the violations are named.
pub fn left_lines(residual: &Node, violations: &[String]) -> Vec<String> {
    let words = residual.words().len();
    match residual {
        Node::Plain(true) => vec!["  Left for the officers: nothing. The residual is plain true.".to_string()],
        Node::Plain(false) => vec![
            "  Left for the officers: nothing. The residual is plain false, in every extension of the log:".to_string(),
            format!("  the policy is violated by {}.", violations.join(", ")),
        ],
        _ => {
            let mut lines = vec![format!(
                "  Left for the officers, all of (the residual, {words} words):"
            )];
            for (part, number) in parts(residual).iter().zip(1..) {
                lines.extend(show::lines(part, 7, &format!("    {number}.")));
                lines.push(format!("       -> {}", why_left(part)));
            }
            lines
        }
    }
}

fn why_left(part: &Node) -> String {
    let open = open_predicates(part);
    let names: Vec<&str> = open.iter().map(|number| PREDICATES[*number].name).collect();
    let are = if names.len() == 1 { "is" } else { "are" };
    let names = names.join(" and ");
    match part {
        Node::Quantifier { .. } => format!("{names} {are} open: tuples with no row yet may come to light"),
        _ => format!("no row, and {names} {are} open: a person has to judge"),
    }
}
