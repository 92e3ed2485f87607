//! Policies as text, over the hospital's predicates.
//!
//! A variable has the name of the argument at which its restriction binds it first, or its number behind an `x` if that
//! name is taken. Constants have the name that fits the argument; in comparisons they are numbers.

use crate::names::{constant, Argument, Sort, PREDICATES};
use crate::tree::{Node, Term};

/// Lines are at most so long where they can be broken.
pub const WIDTH: usize = 100;

/// A variable in scope. Its number is its index.
#[derive(Clone)]
struct Variable {
    name: String,
    sort: Option<Sort>,
}

/// A closed formula in one line.
pub fn line(node: &Node) -> String {
    inline(node, &[])
}

/// A closed formula in lines, indented by so many spaces; `mark` stands in the indent of the first.
pub fn lines(node: &Node, indent: usize, mark: &str) -> Vec<String> {
    let mut lines = Vec::new();
    broken(node, &[], indent, "", &mut lines);
    lines[0].replace_range(..mark.len(), mark);
    lines
}

/// A tuple for the variables that a restriction binds.
fn tuple(numbers: &[i32], variables: &[Variable]) -> String {
    let name = |(number, variable): (&i32, &Variable)| named(variable.sort, *number);
    let names: Vec<String> = numbers.iter().zip(variables).map(name).collect();
    format!("({})", names.join(", "))
}

fn named(sort: Option<Sort>, number: i32) -> String {
    sort.map_or(number.to_string(), |sort| constant(sort, number))
}

fn term(term: &Term, sort: Option<Sort>, scope: &[Variable]) -> String {
    match *term {
        Term::Constant(number) => named(sort, number),
        Term::Variable(variable) => scope[variable].name.clone(),
    }
}

/// The scope with so many more variables, which a restriction binds.
fn extended(scope: &[Variable], variables: usize, restriction: &Node) -> Vec<Variable> {
    let mut scope = scope.to_vec();
    for number in scope.len()..scope.len() + variables {
        let argument = binder(restriction, number);
        let free = argument.filter(|argument| scope.iter().all(|other| other.name != argument.name));
        scope.push(Variable {
            name: free.map_or(format!("x{number}"), |argument| argument.name.to_string()),
            sort: argument.map(|argument| argument.sort),
        });
    }
    scope
}

/// The argument at which the first atom of a restriction has a variable.
fn binder(restriction: &Node, variable: usize) -> Option<&'static Argument> {
    match restriction {
        Node::Atom {
            holds: true,
            predicate,
            terms,
        } => {
            let index = terms.iter().position(|term| *term == Term::Variable(variable))?;
            Some(&PREDICATES[*predicate].arguments[index])
        }
        Node::Join { children, .. } => children.iter().find_map(|child| binder(child, variable)),
        Node::Some(child) => binder(child, variable),
        _ => None,
    }
}

fn names(variables: &[Variable]) -> String {
    let names: Vec<&str> = variables.iter().map(|variable| variable.name.as_str()).collect();
    names.join(", ")
}

fn quantifier(all: bool) -> &'static str {
    if all {
        "for all"
    } else {
        "exists"
    }
}

fn join(all: bool) -> &'static str {
    if all {
        "all of"
    } else {
        "any of"
    }
}

fn inline(node: &Node, scope: &[Variable]) -> String {
    match node {
        Node::Plain(truth) => truth.to_string(),
        Node::Atom {
            holds,
            predicate,
            terms,
        } => {
            let predicate = &PREDICATES[*predicate];
            let terms = terms.iter().zip(predicate.arguments);
            let terms: Vec<String> = terms.map(|(of, at)| term(of, Some(at.sort), scope)).collect();
            let not = if *holds { "" } else { "not " };
            format!("{not}{}({})", predicate.name, terms.join(", "))
        }
        Node::Comparison {
            holds,
            offset,
            left,
            right,
        } => {
            let [left, right] = [left, right].map(|of| term(of, None, scope));
            let offset = match *offset {
                0 => String::new(),
                1.. => format!(" + {offset}"),
                _ => format!(" - {}", offset.unsigned_abs()),
            };
            let sign = if *holds { "<=" } else { ">" };
            format!("{left}{offset} {sign} {right}")
        }
        Node::Join { all, children } => {
            let children: Vec<String> = children.iter().map(|child| inline(child, scope)).collect();
            format!("{} ({})", join(*all), children.join("; "))
        }
        Node::Quantifier {
            all,
            variables,
            excluded,
            restriction,
            body,
        } => {
            let inner = extended(scope, *variables, restriction);
            let own = &inner[scope.len()..];
            let others: Vec<String> = excluded.iter().map(|numbers| tuple(numbers, own)).collect();
            let others = match others.join(", ") {
                none if none.is_empty() => none,
                others => format!(" other than {others}"),
            };
            let [restriction, body] = [restriction, body].map(|child| inline(child, &inner));
            let (quantifier, own) = (quantifier(*all), names(own));
            format!("{quantifier} {own} with {restriction}{others}: {body}")
        }
        Node::Some(child) => {
            let inner = extended(scope, 1, child);
            let own = names(&inner[scope.len()..]);
            format!("some {own} with {}", inline(child, &inner))
        }
    }
}

/// Adds the lines of a node, the first one with a word in front.
fn broken(node: &Node, scope: &[Variable], indent: usize, word: &str, lines: &mut Vec<String>) {
    let whole = format!("{:indent$}{word}{}", "", inline(node, scope));
    // One more for a colon.
    let fits = whole.len() < WIDTH;
    match node {
        Node::Join { all, children } if !fits => {
            lines.push(format!("{:indent$}{word}{}:", "", join(*all)));
            for child in children {
                broken(child, scope, indent + 2, "", lines);
            }
        }
        Node::Quantifier {
            all,
            variables,
            excluded,
            restriction,
            body,
        } if !fits => {
            let inner = extended(scope, *variables, restriction);
            let own = &inner[scope.len()..];
            let start = format!("{:indent$}{word}{} {}", "", quantifier(*all), names(own));
            let head = format!("{start} with {}", inline(restriction, &inner));
            if head.len() < WIDTH {
                lines.push(head);
            } else {
                lines.push(start);
                broken(restriction, &inner, indent + 4, "with ", lines);
            }
            let others = excluded.iter().map(|numbers| tuple(numbers, own));
            wrapped(others, indent + 4, "other than ", lines);
            lines.last_mut().expect("a line at least").push(':');
            broken(body, &inner, indent + 2, "", lines);
        }
        Node::Some(child) if !fits => {
            let inner = extended(scope, 1, child);
            let own = names(&inner[scope.len()..]);
            lines.push(format!("{:indent$}{word}some {own}", ""));
            broken(child, &inner, indent + 2, "with ", lines);
        }
        _ => lines.push(whole),
    }
}

/// Adds lines that list the items, if there are any.
fn wrapped(items: impl Iterator<Item = String>, indent: usize, word: &str, lines: &mut Vec<String>) {
    let mut current = format!("{:indent$}{word}", "");
    let mut first = true;
    for item in items {
        if !first {
            current.push(',');
            // The item, a space before it, and a comma or a colon behind it.
            if current.len() + item.len() + 2 > WIDTH {
                lines.push(std::mem::replace(
                    &mut current,
                    format!("{:1$}", "", indent + word.len()),
                ));
            } else {
                current.push(' ');
            }
        }
        current.push_str(&item);
        first = false;
    }
    if !first {
        lines.push(current);
    }
}

#[cfg(test)]
mod tests {
    use super::*;
    use crate::names::table;
    use crate::policy::policy;
    use inputs::{Random, Recipe};
    use vitrinehawk::check_policy;

    fn read(words: &[i32]) -> Node {
        check_policy(&table(), words).unwrap_or_else(|refused| panic!("{refused}: {words:?}"));
        Node::read(words).expect("an accepted policy")
    }

    #[test]
    fn every_tag_has_its_text() {
        let role = "in_role(Kern, police)";
        let cases: [(&[i32], &str); 13] = [
            (&[0], "false"),
            (&[1], "true"),
            (&[2, 1, 2, 0, 5, 0, 5], role),
            (&[3, 2, 3, 0, 7, 0, -4, 0, 9], "not consented(Weiss, -4, 9)"),
            (&[4, 0, 0, 5, 0, 6], "5 <= 6"),
            (&[4, 7, 0, -5, 0, 6], "-5 + 7 <= 6"),
            (&[5, i32::MIN, 0, 5, 0, i32::MAX], "5 - 2147483648 > 2147483647"),
            (&[6, 2, 1, 0], "all of (true; false)"),
            (&[7, 3, 1, 6, 2, 0, 1, 0], "any of (true; all of (false; true); false)"),
            (
                &[8, 2, 0, 2, 1, 2, 1, 0, 1, 1, 3, 1, 2, 1, 0, 0, 1],
                "for all person, role with in_role(person, role): not in_role(person, nurse)",
            ),
            (
                &[8, 2, 2, 3, 3, 77, 1, 2, 1, 2, 1, 1, 1, 0, 1],
                "for all role, person with in_role(person, role) other than (physician, Adler), (77, Huber): true",
            ),
            (
                &[9, 1, 1, 5, 2, 1, 2, 1, 0, 1, 0, 5, 2, 1, 0, 0, 3],
                "exists person with in_role(person, person) other than (Kern): person + 2 > 3",
            ),
            (
                &[8, 1, 0, 10, 2, 1, 2, 1, 1, 1, 0, 1],
                "for all role with some person with in_role(person, role): true",
            ),
        ];
        for (words, text) in cases {
            assert_eq!(line(&read(words)), text);
            assert!(text.len() >= WIDTH || lines(&read(words), 0, "") == [text]);
        }
    }

    #[test]
    fn a_name_that_is_taken_gives_way_to_the_number() {
        // for all x0 with in_role(x0, 3): exists x1 with in_role(x1, 4): all of (in_role(x0, 4); in_role(x1, 3))
        let inner = [
            9, 1, 0, 2, 1, 2, 1, 1, 0, 4, 6, 2, 2, 1, 2, 1, 0, 0, 4, 2, 1, 2, 1, 1, 0, 3,
        ];
        let words = [&[8, 1, 0, 2, 1, 2, 1, 0, 0, 3], &inner[..]].concat();
        let text = lines(&read(&words), 0, "");
        let expected = [
            "for all person with in_role(person, physician):",
            "  exists x1 with in_role(x1, insurer): all of (in_role(person, insurer); in_role(x1, physician))",
        ];
        assert_eq!(text, expected);
    }

    #[test]
    fn long_restrictions_and_tuples_are_broken() {
        let sent = [2, 0, 4, 1, 0, 1, 1, 1, 2, 1, 3];
        let some = [10, 2, 0, 4, 1, 0, 1, 1, 1, 2, 1, 4];
        let long = [10, 6, 4, 2, 0, 4, 1, 0, 1, 1, 1, 2, 1, 4, 1, 1, 4, 0, 1, 4, 1, 3];
        let restriction = [&[6, 3], &sent[..], &some, &long].concat();
        let tuples = [
            [1, 3, 6, 10],
            [1, 4, 7, 12],
            [1, 5, 8, 14],
            [1, 3, 9, 15],
            [2, 4, 7, 16],
        ]
        .concat();
        let words = [&[8, 4, 5], &tuples[..], &restriction, &[1]].concat();
        let expected = [
            "1. for all sender, receiver, patient, day",
            "       with all of:",
            "         sent(sender, receiver, patient, day)",
            "         some x4 with sent(sender, receiver, patient, x4)",
            "         some x4 with all of (sent(sender, receiver, patient, x4); true; true; x4 <= day)",
            "       other than (Huber, Adler, Lindt, 10), (Huber, Ruiz, Weiss, 12), (Huber, Kern, Okafor, 14),",
            "                  (Huber, Adler, Moreau, 15), (Brandt, Ruiz, Weiss, 16):",
            "     true",
        ];
        assert_eq!(lines(&read(&words), 3, "1."), expected);

        let atoms = [&sent[..], &sent, &sent].concat();
        let words = [&[8, 3, 0, 10, 7, 3], &atoms[..], &[0]].concat();
        let expected = [
            "for all sender, receiver, patient",
            "    with some day",
            "      with any of:",
            "        sent(sender, receiver, patient, day)",
            "        sent(sender, receiver, patient, day)",
            "        sent(sender, receiver, patient, day):",
            "  false",
        ];
        assert_eq!(lines(&read(&words), 0, ""), expected);
    }

    #[test]
    fn the_lines_are_the_line_broken() {
        let words_of = |text: &str| -> String {
            let words = text
                .split_whitespace()
                .map(|word| word.trim_matches([';', ':', '(', ')']));
            words.collect()
        };
        let mut random = Random::new(2);
        for _ in 0..2_000 {
            let recipe = Recipe::good(&mut random);
            let node = read(&inputs::policy(&mut random, &table(), &recipe));
            let broken = lines(&node, 0, "");
            assert!(broken.iter().all(|line| line.is_ascii() && !line.trim().is_empty()));
            assert!(broken.iter().all(|line| line.trim_end() == line));
            let [broken, whole] = [broken.join("\n"), line(&node)].map(|text| words_of(&text));
            assert_eq!(broken, whole);
        }
        let broken = lines(&policy(), 0, "").join("\n");
        assert_eq!(words_of(&broken), words_of(&line(&policy())));
    }

    #[test]
    fn every_word_shows() {
        let mut random = Random::new(3);
        let mut compared = 0;
        for _ in 0..100 {
            let recipe = Recipe::good(&mut random);
            let words = inputs::policy(&mut random, &table(), &recipe);
            let text = line(&read(&words));
            for place in 0..words.len().min(200) {
                for change in [-2, -1, 1, 2] {
                    let mut other = words.clone();
                    other[place] = other[place].wrapping_add(change);
                    if check_policy(&table(), &other).is_ok() {
                        assert_ne!(line(&read(&other)), text, "{words:?} changed at {place}");
                        compared += 1;
                    }
                }
            }
        }
        assert!(compared > 2_000, "{compared}");
    }
}
