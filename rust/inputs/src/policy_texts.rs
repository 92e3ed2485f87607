//! Random texts: policies in the TPTP typed form, well formed or not.

mod deep;

pub use deep::{deep_policy_texts, DeepText};

use crate::shrink::head;
use crate::Random;

/// Bytes at which something changes, somewhere in the text of a policy.
pub const POLICY_TEXT_BYTES: [u8; 52] = [
    b' ', b'\n', b'\r', b'\t', 11, b'0', b'1', b'2', b'7', b'9', b'-', b'+', b'(', b')', b'[', b']', b',', b'.', b':',
    b';', b'&', b'|', b'=', b'>', b'<', b'!', b'?', b'~', b'$', b'%', b'/', b'\'', b'"', b'_', b'@', b'`', b'{', b'a',
    b'z', b'A', b'Z', b'X', b'p', b't', b'f', b'l', b'i', b's', 0, 127, 128, 255,
];

/// What may stand between tokens.
const BLANKS: [u8; 3] = [b' ', b'\n', b'\r'];

/// Names that a text may have.
const NAMES: [&str; 8] = ["a", "z", "b9", "aB_c", "tff", "axiom", "x____0", "policy_of_9"];

/// How the text of a policy is spelled.
#[derive(Clone, Copy, Debug)]
pub struct PolicySpelling {
    /// On average there are blanks before one token in so many, and behind the last; if `None`, nowhere.
    pub blanks: Option<usize>,
    /// Whether the text has another name than `a`, now and then.
    pub any_name: bool,
}

impl PolicySpelling {
    /// The name is `a`, and there are no blanks.
    pub const PLAIN: PolicySpelling = PolicySpelling {
        blanks: None,
        any_name: false,
    };

    /// Any spelling.
    pub fn any(random: &mut Random) -> Self {
        PolicySpelling {
            blanks: random.pick(&[None, Some(1), Some(2), Some(10), Some(40)]),
            any_name: random.once_in(2),
        }
    }
}

/// The text of a policy that is good by question 3. Of other words, some text that is like them.
pub fn spelled_policy(random: &mut Random, policy: &[i32], spelling: PolicySpelling) -> Vec<u8> {
    let mut speller = Speller::new(random, policy, None);
    speller.text(spelling.any_name);
    let tokens = speller.tokens;
    match spelling.blanks {
        Some(one_in) => tokens.spaced(random, one_in),
        None => tokens.bytes,
    }
}

/// The text of a policy with mistakes that are easy to make, and with blanks or not.
pub fn slipping_policy_text(random: &mut Random, policy: &[i32]) -> Vec<u8> {
    let slips = random.pick(&[10, 30, 100, 300]);
    let mut speller = Speller::new(random, policy, Some(slips));
    speller.text(true);
    let tokens = speller.tokens;
    match PolicySpelling::any(random).blanks {
        Some(one_in) => tokens.spaced(random, one_in),
        None => tokens.bytes,
    }
}

/// Tokens, one behind the other.
#[derive(Default)]
struct Tokens {
    bytes: Vec<u8>,
    /// Where each token ends.
    ends: Vec<usize>,
}

impl Tokens {
    fn push(&mut self, token: &str) {
        self.bytes.extend(token.bytes());
        self.ends.push(self.bytes.len());
    }

    /// A text with blanks before one token in so many.
    fn spaced(&self, random: &mut Random, one_in: usize) -> Vec<u8> {
        let mut text = Vec::new();
        let mut from = 0;
        for end in &self.ends {
            push_blanks(random, one_in, &mut text);
            text.extend(&self.bytes[from..*end]);
            from = *end;
        }
        push_blanks(random, one_in, &mut text);
        text
    }
}

/// Adds blanks, once in so many times.
fn push_blanks(random: &mut Random, one_in: usize, text: &mut Vec<u8>) {
    if random.once_in(one_in) {
        for _ in 0..random.pick(&[1, 1, 1, 2, 2, 3, 8]) {
            text.push(random.pick(&BLANKS));
        }
    }
}

/// Spells the words of a policy from front to back.
struct Speller<'a> {
    random: &'a mut Random,
    words: &'a [i32],
    /// On average one choice in so many goes wrong; if `None`, none does.
    slips: Option<usize>,
    tokens: Tokens,
}

impl<'a> Speller<'a> {
    fn new(random: &'a mut Random, words: &'a [i32], slips: Option<usize>) -> Self {
        Speller {
            random,
            words,
            slips,
            tokens: Tokens::default(),
        }
    }

    fn slip(&mut self) -> bool {
        self.slips.is_some_and(|slips| self.random.once_in(slips))
    }

    /// Writes a token, or another one by mistake.
    fn put(&mut self, token: &str, others: &[&str]) {
        let token = if !others.is_empty() && self.slip() {
            self.random.pick(others)
        } else {
            token
        };
        self.tokens.push(token);
    }

    fn text(&mut self, any_name: bool) {
        let name = if any_name { self.random.pick(&NAMES) } else { "a" };
        self.put("tff", &["fof", "cnf", "TFF", "tf", "tfff"]);
        self.put("(", &["", "(("]);
        self.put(name, &["A", "0", "_a", "", "'a'", "a b", "a-b", "$a"]);
        self.put(",", &["", ";"]);
        self.put("axiom", &["conjecture", "type", "Axiom", "axioms", "axio", ""]);
        self.put(",", &["", ",,"]);
        self.join_or_single(0, true);
        self.put(")", &["", "))", ",a)"]);
        self.put(".", &["", "..", ";", ".%", ".tff(b,axiom,$true)."]);
    }

    /// Spells a node that stands inside another connective.
    fn operand(&mut self, scope: usize, formula: bool) {
        let is_join = matches!(self.words.first(), Some(6 | 7));
        if is_join != self.slip() {
            self.tokens.push("(");
            self.join_or_single(scope, formula);
            self.tokens.push(")");
        } else {
            self.join_or_single(scope, formula);
        }
    }

    /// Spells a node without parentheses of its own. If it is cut off, nothing or a part of it.
    fn join_or_single(&mut self, scope: usize, formula: bool) {
        let Some((own, children)) = head(self.words) else {
            if let [other, rest @ ..] = self.words {
                self.words = rest;
                self.put(&other.to_string(), &[]);
            }
            return;
        };
        let (node, rest) = self.words.split_at(own.min(self.words.len()));
        self.words = rest;
        if self.slip() && self.random.once_in(2) {
            self.put("~", &["~~"]);
        }
        match node {
            [0] => self.put("$false", &["$true", "$fals", "false", "$False", "$falsee"]),
            [1] => self.put("$true", &["$false", "$tru", "true", "$True", "$t"]),
            [tag @ 2..=3, predicate, _, terms @ ..] => self.atom(*tag == 2, *predicate, terms),
            [tag @ 4..=5, offset, terms @ ..] => self.comparison(*tag == 4, *offset, terms),
            [tag @ 6..=7, ..] => self.join(*tag == 6, children, scope, formula),
            [tag @ 8..=9, variables, _, tuples @ ..] => self.quantifier(*tag == 8, *variables, tuples, scope),
            [10] => {
                self.put("?", &["!", ""]);
                self.binder(scope, 1);
                self.put("(", &["", "(("]);
                self.join_or_single(scope + 1, false);
                self.put(")", &["", "))", "&$true)", "=>$true)"]);
            }
            _ => {}
        }
    }

    fn join(&mut self, all: bool, children: usize, scope: usize, formula: bool) {
        let (connective, other) = if all { ("&", "|") } else { ("|", "&") };
        for child in 0..children {
            if self.words.is_empty() {
                break;
            }
            if child > 0 {
                self.put(connective, &[other, "=>", "", ",", "<=>", "&&"]);
            }
            if self.slip() {
                self.put("X0", &["X1", "1"]);
                self.put("!=", &["="]);
                self.put("7", &["X1"]);
            } else {
                self.operand(scope, formula);
            }
        }
    }

    fn quantifier(&mut self, all: bool, variables: i32, tuples: &[i32], scope: usize) {
        let bound = variables.clamp(0, 9) as usize;
        let inner = scope + bound;
        let (sign, other) = if all { ("!", "?") } else { ("?", "!") };
        self.put(sign, &[other, ""]);
        self.binder(scope, bound);
        self.put("(", &["", "(("]);
        let excluded = !tuples.is_empty();
        if excluded != self.slip() {
            self.tokens.push("(");
        }
        self.operand(inner, false);
        for tuple in tuples.chunks(bound.max(1)) {
            self.put("&", &["|", "", "=>", "&$true&"]);
            self.tuple(tuple, scope);
        }
        if excluded != self.slip() {
            self.tokens.push(")");
        }
        let (connective, other) = if all { ("=>", "&") } else { ("&", "=>") };
        self.put(connective, &[other, "", "|", "=", ">", "= >", "<="]);
        self.operand(inner, true);
        self.put(")", &["", "))", "&$true)"]);
    }

    fn binder(&mut self, scope: usize, variables: usize) {
        self.put("[", &["", "("]);
        for number in scope..scope + variables {
            if number > scope {
                self.put(",", &["", ";"]);
            }
            self.variable(number);
            self.put(":", &["", ": $int ,"]);
            self.put("$int", &["$i", "$integer", "int", "", "$real"]);
        }
        self.put("]", &["", ")", ",]"]);
        self.put(":", &["", "::"]);
    }

    /// Spells an excluded tuple of the variables from a number on.
    fn tuple(&mut self, tuple: &[i32], from: usize) {
        let several = tuple.len() > 1;
        if several != self.slip() {
            self.tokens.push("(");
        }
        let mut numbers: Vec<usize> = (from..from + tuple.len()).collect();
        if self.slip() {
            self.random.shuffle(&mut numbers);
        }
        if self.slip() {
            numbers.pop();
        }
        for (place, (number, value)) in numbers.iter().zip(tuple).enumerate() {
            if place > 0 {
                self.put("|", &["&", "", ","]);
            }
            self.variable(*number);
            self.put("!=", &["=", "! =", "!==", "<>", ""]);
            self.number(*value);
        }
        if several != self.slip() {
            self.tokens.push(")");
        }
    }

    fn atom(&mut self, holds: bool, predicate: i32, terms: &[i32]) {
        if !holds {
            self.put("~", &["", "~~", "~("]);
        }
        let predicate = format!("p{predicate}");
        self.put(
            &predicate,
            &["p", "p00", "P0", "q0", "p-1", "p 0", "p2147483647", "p2147483648"],
        );
        self.put("(", &["", "(("]);
        for (place, term) in terms.chunks(2).enumerate() {
            if place > 0 {
                self.put(",", &["", ";", ",,"]);
            }
            self.term(term);
        }
        self.put(")", &["", "))", ",1)", ",)", ",1,2,3,4,5,6)"]);
    }

    fn comparison(&mut self, holds: bool, offset: i32, terms: &[i32]) {
        let (left, right) = terms.split_at(terms.len().min(2));
        if !holds {
            self.put("~", &["", "~~"]);
        }
        self.put("$lesseq", &["$less", "$greatereq", "$lesse", "lesseq", "$lesseqq"]);
        self.put("(", &["", "(("]);
        self.put("$sum", &["$difference", "sum", "$su", ""]);
        self.put("(", &[""]);
        self.term(left);
        self.put(",", &[""]);
        self.number(offset);
        self.put(")", &["", ",1)"]);
        self.put(",", &["", "),"]);
        self.term(right);
        self.put(")", &["", ",1)"]);
    }

    fn term(&mut self, term: &[i32]) {
        match *term {
            [0, value] => self.number(value),
            [1, number] if !self.slip() => self.put(&format!("X{number}"), &[]),
            [_, number] => self.variable(number.unsigned_abs() as usize),
            _ => {}
        }
    }

    fn variable(&mut self, number: usize) {
        let [less, more] = [number.saturating_sub(1), number + 1].map(|other| format!("X{other}"));
        let (variable, padded) = (format!("X{number}"), format!("X0{number}"));
        let others: [&str; 9] = [
            &less,
            &more,
            &padded,
            "X",
            "x0",
            "X 0",
            "Y",
            "X2147483647",
            "X2147483648",
        ];
        self.put(&variable, &others);
    }

    fn number(&mut self, number: i32) {
        self.put(
            &number.to_string(),
            &[
                "-0",
                "00",
                "07",
                "+7",
                "- 7",
                "-",
                "--7",
                "7.0",
                "7a",
                "",
                "2147483647",
                "2147483648",
                "-2147483648",
                "-2147483649",
                "4294967297",
                "18446744073709551617",
                "X99",
                "$sum(1,2)",
            ],
        );
    }
}

/// Pieces of which an allowed text is more likely made than of single bytes.
const PIECES: [&str; 36] = [
    "$true",
    "$false",
    "p0(1)",
    "p1(1,2)",
    "p2(X0)",
    "X0",
    "X1",
    "0",
    "1",
    "-7",
    "(",
    "(",
    "(",
    ")",
    ")",
    ")",
    "&",
    "&",
    "|",
    "|",
    "=>",
    "=>",
    "~",
    "!",
    "?",
    "![X0:$int]:(",
    "?[X0:$int]:(",
    "?[X1:$int]:(",
    "[X0:$int,X1:$int]:(",
    "X0!=7",
    "(X0!=7|X1!=9)",
    "$lesseq($sum(1,2),3)",
    ",",
    " ",
    ").",
    "(p2(1)&",
];

/// Changes the text of a policy in one way: replaces, moves, drops or adds a byte or a piece, puts or drops a pair of
/// parentheses, or cuts it off.
pub fn damage_policy_text(random: &mut Random, text: &mut Vec<u8>) {
    if text.is_empty() {
        text.push(random.pick(&POLICY_TEXT_BYTES));
        return;
    }
    let place = random.below(text.len());
    let other = random.below(text.len());
    let (first, last) = (place.min(other), place.max(other));
    match random.below(14) {
        0..=1 => text[place] = random.pick(&POLICY_TEXT_BYTES),
        2 => text[place] = random.number() as u8,
        3 => text[place] = text[other],
        4 => text.swap(place, other),
        5 => {
            text.remove(place);
        }
        6 => text.insert(place, random.pick(&POLICY_TEXT_BYTES)),
        7 => insert_piece(random, text, place),
        8 => {
            text.drain(place..text.len().min(place + random.between(1, 8)));
            insert_piece(random, text, place);
        }
        9 => {
            text.insert(last + 1, b')');
            text.insert(first, b'(');
        }
        10 => drop_parentheses(text, place),
        11 => {
            let copied = text[first..last.min(first + 30)].to_vec();
            text.splice(last..last, copied);
        }
        12 => {
            text.drain(first..last.min(first + 12));
        }
        _ => text.truncate(place),
    }
}

fn insert_piece(random: &mut Random, text: &mut Vec<u8>, place: usize) {
    text.splice(place..place, random.pick(&PIECES).bytes());
}

/// Drops the first opening parenthesis from a place on, and the one that closes it.
fn drop_parentheses(text: &mut Vec<u8>, from: usize) {
    let Some(first) = text[from..].iter().position(|byte| *byte == b'(') else {
        return;
    };
    let first = from + first;
    let mut open = 0;
    let closes = |byte: &u8| {
        open += usize::from(*byte == b'(');
        open -= usize::from(*byte == b')');
        open == 0
    };
    if let Some(length) = text[first..].iter().position(closes) {
        text.remove(first + length);
    }
    text.remove(first);
}

/// At most so many pieces without any order where the formula of a text stands, with blanks between them or not.
pub fn noise_policy_text(random: &mut Random, most: usize) -> Vec<u8> {
    let length = random.below(most + 1);
    let blanks = random.pick(&[None, None, Some(3)]);
    let mut text = b"tff(a,axiom,".to_vec();
    for _ in 0..length {
        if let Some(one_in) = blanks {
            push_blanks(random, one_in, &mut text);
        }
        if random.once_in(40) {
            text.push(random.pick(&POLICY_TEXT_BYTES));
        } else {
            text.extend(random.pick(&PIECES).bytes());
        }
    }
    text.extend(b").");
    text
}

#[cfg(test)]
mod tests {
    use super::*;

    fn plain(policy: &[i32]) -> String {
        let text = spelled_policy(&mut Random::new(0), policy, PolicySpelling::PLAIN);
        String::from_utf8(text).unwrap()
    }

    #[test]
    fn plain_texts() {
        assert_eq!(plain(&[1]), "tff(a,axiom,$true).");
        assert_eq!(
            plain(&[6, 2, 2, 2, 1, 0, 9, 8, 3, 1, 7, 9, 100, 2, 0, 3, 1, 0, 1, 1, 1, 2, 2, 2, 1, 1, 1]),
            "tff(a,axiom,p2(9)&![X0:$int,X1:$int,X2:$int]:((p0(X0,X1,X2)&(X0!=7|X1!=9|X2!=100))=>p2(X1)))."
        );
        assert_eq!(
            plain(&[9, 1, 2, 7, -8, 10, 6, 2, 3, 1, 2, 1, 0, 1, 1, 5, 3, 0, -1, 1, 0, 7, 2, 0, 6, 2, 1, 1]),
            "tff(a,axiom,?[X0:$int]:((?[X1:$int]:(~p1(X0,X1)&~$lesseq($sum(-1,3),X0))&X0!=7&X0!=-8)\
             &($false|($true&$true))))."
        );
    }

    #[test]
    fn blanks_stand_between_tokens() {
        let random = &mut Random::new(1);
        let policy = [8, 1, 1, -5, 3, 12, 1, 1, 0, 4, 10, 1, 0, 0, -20];
        let spelling = PolicySpelling {
            blanks: Some(1),
            any_name: false,
        };
        let spaced = String::from_utf8(spelled_policy(random, &policy, spelling)).unwrap();
        let expected = [
            "tff", "(", "a", ",", "axiom", ",", "!", "[", "X0", ":", "$int", "]", ":", "(", "(", "~", "p12", "(", "X0",
            ")", "&", "X0", "!=", "-5", ")", "=>", "$lesseq", "(", "$sum", "(", "X0", ",", "10", ")", ",", "-20", ")",
            ")", ")", ".",
        ];
        assert_eq!(spaced.split_ascii_whitespace().collect::<Vec<_>>(), expected);
        assert!(spaced.starts_with([' ', '\n', '\r']) && spaced.ends_with([' ', '\n', '\r']));
    }

    #[test]
    fn parentheses_are_dropped_in_pairs() {
        let dropped = |from| {
            let mut text = b"a(b(c)d)e(".to_vec();
            drop_parentheses(&mut text, from);
            String::from_utf8(text).unwrap()
        };
        assert_eq!(dropped(0), "ab(c)de(");
        assert_eq!(dropped(2), "a(bcd)e(");
        assert_eq!(dropped(4), "a(b(c)d)e");
    }
}
