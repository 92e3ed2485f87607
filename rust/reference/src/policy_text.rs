//! A policy in the TPTP typed form: the words that a text spells, and the text of a policy.

use crate::tptp::{self, Node};
use crate::tree::{Atom, Fact, Formula, Quantifier, Restriction, Term};

/// The words of a tree that was read from a text.
pub fn words_of(root: &Node) -> Vec<i32> {
    let mut words = Vec::new();
    push_words(root, &mut words);
    words
}

fn push_words(node: &Node, words: &mut Vec<i32>) {
    match node {
        Node::Plain(value) => words.push(i32::from(*value)),
        Node::Atom {
            holds,
            predicate,
            terms,
        } => {
            words.extend([if *holds { 2 } else { 3 }, *predicate, word(terms.len())]);
            push_terms(terms, words);
        }
        Node::Comparison { holds, offset, terms } => {
            words.extend([if *holds { 4 } else { 5 }, *offset]);
            push_terms(terms, words);
        }
        Node::Join { all, children } => {
            words.extend([if *all { 6 } else { 7 }, word(children.len())]);
            children.iter().for_each(|child| push_words(child, words));
        }
        Node::Quantifier {
            all,
            variables,
            excluded,
            parts,
        } => {
            let tuples = excluded.len() / variables;
            words.extend([if *all { 8 } else { 9 }, word(*variables), word(tuples)]);
            words.extend(excluded);
            parts.iter().for_each(|part| push_words(part, words));
        }
        Node::Some(child) => {
            words.push(10);
            push_words(child, words);
        }
    }
}

fn push_terms(terms: &[tptp::Term], words: &mut Vec<i32>) {
    words.extend(terms.iter().flat_map(|term| match *term {
        tptp::Term::Constant(number) => [0, number],
        tptp::Term::Variable(number) => [1, number],
    }));
}

/// A count as a word.
fn word(count: usize) -> i32 {
    i32::try_from(count).expect("no text is so long")
}

/// The text of an accepted policy, named `a` and without blanks.
pub fn text_of(policy: &Formula) -> String {
    let mut writer = Writer { text: String::new() };
    writer.put("tff(a,axiom,");
    writer.formula(policy, 0);
    writer.put(").");
    writer.text
}

/// Writes a text from front to back.
struct Writer {
    text: String,
}

impl Writer {
    fn put(&mut self, text: &str) {
        self.text.push_str(text);
    }

    /// Writes a formula with so many variables in scope.
    fn formula(&mut self, formula: &Formula, scope: usize) {
        match formula {
            Formula::Plain(value) => self.plain(*value),
            Formula::Atom(atom) => self.atom(atom),
            Formula::Join { all, children } => self.join(*all, children, |writer, child| writer.operand(child, scope)),
            Formula::Quantifier(quantifier) => self.quantifier(quantifier, scope),
        }
    }

    /// Writes a formula inside another connective.
    fn operand(&mut self, formula: &Formula, scope: usize) {
        let is_join = matches!(formula, Formula::Join { .. });
        self.in_parentheses(is_join, |writer| writer.formula(formula, scope));
    }

    fn quantifier(&mut self, quantifier: &Quantifier, scope: usize) {
        let inner = scope + quantifier.variables;
        self.put(if quantifier.all { "!" } else { "?" });
        self.binder(scope, inner);
        self.put("(");
        let tuples = quantifier.excluded.chunks(quantifier.variables);
        self.in_parentheses(tuples.len() > 0, |writer| {
            writer.restriction_operand(&quantifier.restriction, inner);
            for tuple in tuples {
                writer.put("&");
                writer.unequal(tuple, scope);
            }
        });
        self.put(if quantifier.all { "=>" } else { "&" });
        self.operand(&quantifier.body, inner);
        self.put(")");
    }

    /// Writes that the variables from a number on are not this tuple.
    fn unequal(&mut self, tuple: &[i32], from: usize) {
        let parts = tuple.iter().zip(from..);
        let parts: Vec<String> = parts
            .map(|(number, variable)| format!("X{variable}!={number}"))
            .collect();
        self.in_parentheses(parts.len() > 1, |writer| writer.put(&parts.join("|")));
    }

    /// Writes a restriction with so many variables in scope.
    fn restriction(&mut self, restriction: &Restriction, scope: usize) {
        match restriction {
            Restriction::Plain(value) => self.plain(*value),
            Restriction::Atom(atom) => self.atom(atom),
            Restriction::Join { all, children } => self.join(*all, children, |writer, child| {
                writer.restriction_operand(child, scope);
            }),
            Restriction::Some { child, .. } => {
                self.put("?");
                self.binder(scope, scope + 1);
                self.put("(");
                self.restriction(child, scope + 1);
                self.put(")");
            }
        }
    }

    /// Writes a restriction inside another connective.
    fn restriction_operand(&mut self, restriction: &Restriction, scope: usize) {
        let is_join = matches!(restriction, Restriction::Join { .. });
        self.in_parentheses(is_join, |writer| writer.restriction(restriction, scope));
    }

    fn join<T>(&mut self, all: bool, children: &[T], write: impl Fn(&mut Self, &T)) {
        for (number, child) in children.iter().enumerate() {
            if number > 0 {
                self.put(if all { "&" } else { "|" });
            }
            write(self, child);
        }
    }

    /// Writes something in parentheses, if it needs them.
    fn in_parentheses(&mut self, needed: bool, write: impl FnOnce(&mut Self)) {
        self.put(if needed { "(" } else { "" });
        write(self);
        self.put(if needed { ")" } else { "" });
    }

    /// Writes the binder of the variables from one number to another.
    fn binder(&mut self, from: usize, to: usize) {
        let variables: Vec<String> = (from..to).map(|variable| format!("X{variable}:$int")).collect();
        self.put(&format!("[{}]:", variables.join(",")));
    }

    fn plain(&mut self, value: bool) {
        self.put(if value { "$true" } else { "$false" });
    }

    fn atom(&mut self, atom: &Atom) {
        self.put(if atom.holds { "" } else { "~" });
        match &atom.fact {
            Fact::Logged { predicate, terms } => {
                let terms: Vec<String> = terms.iter().map(spelled).collect();
                self.put(&format!("p{predicate}({})", terms.join(",")));
            }
            Fact::Ordered { offset, terms } => {
                let [left, right] = terms.map(|term| spelled(&term));
                self.put(&format!("$lesseq($sum({left},{offset}),{right})"));
            }
        }
    }
}

/// A term as it is written.
fn spelled(term: &Term) -> String {
    match term {
        Term::Constant(number) => number.to_string(),
        Term::Variable(number) => format!("X{number}"),
    }
}
