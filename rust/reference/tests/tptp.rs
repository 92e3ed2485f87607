//! The TPTP typed form: texts are read as a grammar says, at every byte.
//!
//! The grammar is written down as such, and a text is followed through all its derivations at once. Every symbol can be
//! derived to the end, so a text begins an allowed one as long as a derivation is left.

use std::collections::BTreeSet;

use inputs::{
    damage_policy_text, good_table, noise_policy_text, policy, slipping_policy_text, spelled_policy, PolicySpelling,
    Random, Recipe,
};
use reference::tptp::read_tree;
use reference::{words_of, Question};

/// A symbol of the grammar. Kinds are formulas (true) and restrictions (false); scopes are numbers of variables.
#[derive(Clone, Debug, PartialEq, Eq, PartialOrd, Ord)]
enum Symbol {
    /// These bytes, of which so many were read.
    Token(String, usize),
    /// Any number of blanks.
    Blanks,
    /// More letters, digits and underscores of a name that has its first letter; or not.
    Name {
        begun: bool,
    },
    /// A number of 32 bits that begins like this, or one that has no minus.
    Number(String),
    Natural(String),
    /// A term; at most so many with commas.
    Term,
    Terms(usize),
    /// An atom or a comparison.
    Atom,
    /// Anything but a join.
    Single(bool, usize),
    /// A join, all-of (true) or any-of, without parentheses; the rest of one, behind a connective.
    Join(bool, bool, usize),
    Operands(bool, bool, usize),
    /// Where a join has no parentheses; where it has.
    Whole(bool, usize),
    Operand(bool, usize),
    /// A restriction in the scope of a quantifier that binds so many variables; its excluded tuples.
    Restriction(usize, usize),
    Tuples(usize, usize),
}

use Symbol::{Atom, Blanks, Join, Name, Natural, Number, Operand, Operands, Restriction, Single, Term, Terms, Token};
use Symbol::{Tuples, Whole};

/// A token with nothing before it.
fn bare(token: impl Into<String>) -> Symbol {
    Token(token.into(), 0)
}

/// Tokens, and symbols between them by their places, with blanks before each token.
fn sequence<const N: usize>(symbols: [Symbol; N]) -> Vec<Symbol> {
    symbols
        .into_iter()
        .flat_map(|symbol| match symbol {
            Token(..) | Name { .. } | Number(_) => vec![Blanks, symbol],
            _ => vec![symbol],
        })
        .collect()
}

fn variable(number: usize) -> Symbol {
    bare(format!("X{number}"))
}

fn text() -> Vec<Symbol> {
    let front = sequence([
        bare("tff"),
        bare("("),
        Name { begun: false },
        bare(","),
        bare("axiom"),
        bare(","),
    ]);
    let back = sequence([Whole(true, 0), bare(")"), bare("."), Blanks]);
    [front, back].concat()
}

/// The binder of the next variables.
fn binder(scope: usize, variables: usize) -> Vec<Symbol> {
    let mut symbols = sequence([bare("[")]);
    for number in scope..scope + variables {
        if number > scope {
            symbols.extend(sequence([bare(",")]));
        }
        symbols.extend(sequence([variable(number), bare(":"), bare("$int")]));
    }
    symbols.extend(sequence([bare("]"), bare(":")]));
    symbols
}

/// An excluded tuple of the variables before a scope.
fn tuple(variables: usize, scope: usize) -> Vec<Symbol> {
    let mut symbols = Vec::new();
    for number in scope - variables..scope {
        if number > scope - variables {
            symbols.extend(sequence([bare("|")]));
        }
        symbols.extend(sequence([variable(number), bare("!="), Number(String::new())]));
    }
    if variables > 1 {
        symbols = [sequence([bare("(")]), symbols, sequence([bare(")")])].concat();
    }
    symbols
}

fn quantifier(all: bool, variables: usize, scope: usize) -> Vec<Symbol> {
    let inner = scope + variables;
    let front = sequence([bare(if all { "!" } else { "?" })]);
    let connective = bare(if all { "=>" } else { "&" });
    let back = sequence([
        bare("("),
        Restriction(variables, inner),
        connective,
        Operand(true, inner),
        bare(")"),
    ]);
    [front, binder(scope, variables), back].concat()
}

fn some(scope: usize) -> Vec<Symbol> {
    let back = sequence([bare("("), Whole(false, scope + 1), bare(")")]);
    [sequence([bare("?")]), binder(scope, 1), back].concat()
}

fn connective(all: bool) -> Symbol {
    bare(if all { "&" } else { "|" })
}

/// What a symbol stands for that is not read byte by byte.
fn alternatives(symbol: &Symbol) -> Vec<Vec<Symbol>> {
    let digits = || Natural(String::new());
    match *symbol {
        Term => vec![
            [sequence([bare("X")]), vec![digits()]].concat(),
            sequence([Number(String::new())]),
        ],
        Terms(1) => vec![vec![Term]],
        Terms(most) => vec![vec![Term], sequence([Term, bare(","), Terms(most - 1)])],
        Atom => vec![
            [
                sequence([bare("p")]),
                vec![digits()],
                sequence([bare("("), Terms(6), bare(")")]),
            ]
            .concat(),
            [
                sequence([bare("$lesseq"), bare("("), bare("$sum"), bare("("), Term, bare(",")]),
                sequence([Number(String::new()), bare(")"), bare(","), Term, bare(")")]),
            ]
            .concat(),
        ],
        Single(formula, scope) => {
            let mut singles = vec![
                sequence([bare("$true")]),
                sequence([bare("$false")]),
                vec![Atom],
                sequence([bare("~"), Atom]),
            ];
            if formula {
                singles.extend((1..=4).map(|variables| quantifier(true, variables, scope)));
                singles.extend((1..=4).map(|variables| quantifier(false, variables, scope)));
            } else {
                singles.push(some(scope));
            }
            singles
        }
        Join(all, formula, scope) => {
            let (operand, operands) = (Operand(formula, scope), Operands(all, formula, scope));
            vec![sequence([operand, connective(all), operands])]
        }
        Operands(all, formula, scope) => {
            let operand = Operand(formula, scope);
            vec![
                vec![operand.clone()],
                sequence([operand, connective(all), symbol.clone()]),
            ]
        }
        Whole(formula, scope) => vec![
            vec![Single(formula, scope)],
            vec![Join(true, formula, scope)],
            vec![Join(false, formula, scope)],
        ],
        Operand(formula, scope) => vec![
            vec![Single(formula, scope)],
            sequence([bare("("), Join(true, formula, scope), bare(")")]),
            sequence([bare("("), Join(false, formula, scope), bare(")")]),
        ],
        Restriction(variables, scope) => {
            let operand = Operand(false, scope);
            let tuples = Tuples(variables, scope);
            vec![
                vec![operand.clone()],
                sequence([bare("("), operand, bare("&"), tuples, bare(")")]),
            ]
        }
        Tuples(variables, scope) => {
            let tuple = tuple(variables, scope);
            vec![
                tuple.clone(),
                [tuple, sequence([bare("&")]), vec![symbol.clone()]].concat(),
            ]
        }
        Token(..) | Blanks | Name { .. } | Number(_) | Natural(_) => unreachable!("read byte by byte"),
    }
}

/// Whether these bytes begin a number as it is written; also whether they are one.
fn begins_number(text: &str) -> bool {
    text == "-" || is_number(text)
}

fn is_number(text: &str) -> bool {
    text.parse::<i32>().is_ok_and(|number| number.to_string() == text)
}

/// What is left to be read, the next symbol last.
type Left = Vec<Symbol>;

/// Derivations that have read the same text.
#[derive(Clone)]
struct Derivations {
    /// Each begins with a symbol that is read byte by byte.
    left: BTreeSet<Left>,
    /// Whether one of them has nothing left.
    done: bool,
}

impl Derivations {
    fn start() -> Self {
        Derivations::of([text().into_iter().rev().collect()])
    }

    /// Derives up to symbols that are read byte by byte; those that may be empty are passed over as well.
    fn of(from: impl IntoIterator<Item = Left>) -> Self {
        let mut open: Vec<Left> = from.into_iter().collect();
        let mut derivations = Derivations {
            left: BTreeSet::new(),
            done: false,
        };
        while let Some(mut left) = open.pop() {
            let Some(next) = left.last() else {
                derivations.done = true;
                continue;
            };
            let may_be_empty = match next {
                Token(token, read) => token.len() == *read,
                Blanks | Name { begun: true } => true,
                Name { begun: false } => false,
                Number(digits) | Natural(digits) => is_number(digits),
                _ => {
                    let next = left.pop().expect("there is one");
                    open.extend(alternatives(&next).into_iter().map(|symbols| {
                        let symbols = symbols.into_iter().rev();
                        left.iter().cloned().chain(symbols).collect()
                    }));
                    continue;
                }
            };
            if may_be_empty {
                open.push(left[..left.len() - 1].to_vec());
            }
            if !matches!(next, Token(token, read) if token.len() == *read) {
                derivations.left.insert(left);
            }
        }
        derivations
    }

    /// What is left of the derivations behind a byte, if it can stand there.
    fn behind(&self, byte: u8) -> impl Iterator<Item = Left> + '_ {
        self.left.iter().filter_map(move |left| {
            let (next, above) = left.split_last()?;
            let next = match next {
                Token(token, read) => (token.as_bytes()[*read] == byte).then(|| Token(token.clone(), read + 1)),
                Blanks => matches!(byte, b' ' | b'\n' | b'\r').then_some(Blanks),
                Name { begun: false } => byte.is_ascii_lowercase().then_some(Name { begun: true }),
                Name { begun: true } => (byte.is_ascii_alphanumeric() || byte == b'_').then_some(Name { begun: true }),
                Number(digits) => {
                    let longer = format!("{digits}{}", char::from(byte));
                    begins_number(&longer).then_some(Number(longer))
                }
                Natural(digits) => {
                    let longer = format!("{digits}{}", char::from(byte));
                    (byte != b'-' && is_number(&longer)).then_some(Natural(longer))
                }
                _ => unreachable!("it is read byte by byte"),
            };
            Some([above, &[next?]].concat())
        })
    }

    fn read(&self, byte: u8) -> Self {
        Derivations::of(self.behind(byte))
    }
}

/// Reads a text with each byte behind it as the grammar says, given its derivations. Returns the bytes that can stand
/// there.
fn check_next(text: &[u8], derivations: &Derivations) -> Vec<u8> {
    let can_stand = |byte: &u8| derivations.behind(*byte).next().is_some();
    let refused = |text: &[u8], place: usize| {
        let refusal = read_tree(text).expect_err("the grammar does not allow it");
        assert_eq!(refusal, Question::Tptp.at(place), "{}", text.escape_ascii());
    };
    if derivations.done {
        assert!(read_tree(text).is_ok(), "{}", text.escape_ascii());
    } else {
        refused(text, text.len());
    }
    let (can, cannot): (Vec<u8>, Vec<u8>) = (0..=255).partition(can_stand);
    for byte in cannot {
        refused(&[text, &[byte]].concat(), text.len());
        // Whatever comes behind it.
        refused(&[text, &[byte], b"))=>$true))."].concat(), text.len());
    }
    can
}

/// A text in which joins are first operands of joins has many derivations.
const MOST_DERIVATIONS: usize = 300;

/// Every byte at every place of texts that are allowed: the place of question 15 is the first byte that no allowed text
/// has there, and never an earlier one.
#[test]
fn every_byte_at_every_place() {
    let random = &mut Random::new(0xF202);
    let (mut texts, mut places) = (0, 0);
    while texts < 300 {
        let table = good_table(random);
        let recipe = Recipe {
            nodes: random.pick(&[1, 2, 4, 8]),
            depth: 0,
            most_variables: random.pick(&[4, 16]),
            ..Recipe::good(random)
        };
        let words = policy(random, &table, &recipe);
        let spelling = PolicySpelling::any(random);
        let text = spelled_policy(random, &words, spelling);
        if text.len() > 160 {
            continue;
        }
        texts += 1;
        let mut derivations = Derivations::start();
        for (place, byte) in text.iter().enumerate() {
            check_next(&text[..place], &derivations);
            places += 1;
            derivations = derivations.read(*byte);
        }
        assert!(derivations.done);
        check_next(&text, &derivations);
    }
    println!("{places} places");
    assert!(places > 10_000);
}

/// The same on the way through texts that are made byte by byte, each of those that can stand there.
#[test]
fn every_byte_on_random_ways() {
    let random = &mut Random::new(0xF203);
    let (mut places, mut done) = (0, 0);
    for _ in 0..400 {
        let mut derivations = Derivations::start();
        let mut text = Vec::new();
        // Blanks can stand almost anywhere.
        let blanks = random.pick(&[5, 50]);
        while text.len() < 150 && derivations.left.len() < MOST_DERIVATIONS {
            let mut can = check_next(&text, &derivations);
            places += 1;
            done += usize::from(derivations.done);
            if !random.once_in(blanks) {
                can.retain(|byte| !matches!(byte, b' ' | b'\n' | b'\r'));
            }
            if can.is_empty() {
                break;
            }
            let byte = random.pick(&can);
            text.push(byte);
            derivations = derivations.read(byte);
        }
    }
    println!("{places} places, {done} of them at an end");
    assert!(places > 10_000 && done > 20);
}

/// A text without its blanks, and with the name `a`.
fn plain(text: &[u8]) -> Vec<u8> {
    let bytes: Vec<u8> = text.iter().copied().filter(|byte| !b" \n\r".contains(byte)).collect();
    let comma = bytes.iter().position(|byte| *byte == b',').expect("behind its name");
    [b"tff(a", &bytes[comma..]].concat()
}

/// Whatever is read is the text of its words, but for its name and its blanks.
#[test]
fn what_is_read_is_spelled_so() {
    let random = &mut Random::new(0xF204);
    let (mut read, mut tried) = (0, 0);
    while read < 20_000 {
        tried += 1;
        let table = good_table(random);
        let recipe = Recipe::near_miss(random);
        let words = policy(random, &table, &recipe);
        let mut text = match random.below(4) {
            0 => noise_policy_text(random, 6),
            1 => slipping_policy_text(random, &words),
            _ => {
                let spelling = PolicySpelling::any(random);
                spelled_policy(random, &words, spelling)
            }
        };
        if random.once_in(2) {
            damage_policy_text(random, &mut text);
        }
        if let Ok(root) = read_tree(&text) {
            read += 1;
            let words = words_of(&root);
            let spelled = spelled_policy(random, &words, PolicySpelling::PLAIN);
            assert!(spelled == plain(&text), "{}", text.escape_ascii());
            assert!(words.len() <= spelled.len());
        }
    }
    println!("{read} of {tried}");
}
