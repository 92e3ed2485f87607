//! A policy in the TPTP typed form.
//!
//! A text is read in one pass that puts the words where they belong, and the words are then checked like those of any
//! policy. Only where they do not fit the lent buffer is memory asked for. Where no parenthesis announces a join, its
//! header is put in when its first connective is met; excluded tuples, which a text has behind the restriction, are
//! moved before it.

use super::log::{check_table, Record};
use super::log_text::put_number;
use super::policy::accept;
use super::{Refused, MOST_WORDS};

/// The greatest number of parentheses that are open at once.
const MOST_OPEN: usize = 256;

/// The greatest number of terms of an atom.
const MOST_TERMS: i32 = 6;

/// The greatest number of variables that a quantifier binds.
const MOST_BOUND: usize = 4;

/// Reads a policy from text, writes its words to the front of a buffer (questions 1, 15, 2 to 7 and 12) and returns
/// their number.
///
/// Behind the words the buffer has zeros; if the call is refused, zeros only.
pub fn read_policy(table: &[i32], text: &[u8], buffer: &mut [i32]) -> Result<usize, Refused> {
    let words = read_words(table, text, buffer);
    buffer[words.unwrap_or(0)..].fill(0);
    words
}

/// Leaves the words at the front of the buffer, if they fit.
fn read_words(table: &[i32], text: &[u8], buffer: &mut [i32]) -> Result<usize, Refused> {
    let predicates = check_table(table)?;
    let words = spelled(text, buffer)?;
    if words > MOST_WORDS {
        return Err((2, 0));
    }
    match buffer.get(..words) {
        Some(policy) => accept(predicates, policy).map(|()| words),
        None => Err(refusal_apart(predicates, text, words)),
    }
}

/// The refusal of a text of so many words that do not fit the buffer.
#[cold]
fn refusal_apart(predicates: &[Record], text: &[u8], words: usize) -> Refused {
    let mut policy = vec![0; words];
    let read = spelled(text, &mut policy);
    let accepted = read.and_then(|_| accept(predicates, &policy));
    accepted.err().unwrap_or((12, 0))
}

/// Question 15, and question 4 of parentheses: puts the words of a text into a buffer, as long as they fit, and returns
/// their number.
fn spelled(text: &[u8], buffer: &mut [i32]) -> Result<usize, Refused> {
    let mut reader = Reader {
        text,
        at: 0,
        open: 0,
        buffer,
        words: 0,
    };
    reader.token(b"tff")?;
    reader.open()?;
    reader.name()?;
    reader.token(b",")?;
    reader.token(b"axiom")?;
    reader.token(b",")?;
    reader.whole(true, 0)?;
    reader.close()?;
    reader.token(b".")?;
    reader.look();
    if reader.at < text.len() {
        return Err(reader.refused());
    }
    Ok(reader.words)
}

/// Goes through the text from front to back.
struct Reader<'a> {
    text: &'a [u8],
    /// The first byte not yet read.
    at: usize,
    /// The number of open parentheses.
    open: usize,
    buffer: &'a mut [i32],
    /// The words so far, also those that did not fit.
    words: usize,
}

impl Reader<'_> {
    /// Reads operands that need no parentheses around them, or a single one.
    fn whole(&mut self, formula: bool, scope: usize) -> Result<(), Refused> {
        let first = self.words;
        let in_parentheses = self.look() == b'(';
        self.operand(formula, scope)?;
        match self.look() {
            b'&' | b'|' => {
                self.insert_header(first);
                self.join(first, formula, scope)
            }
            _ if in_parentheses => Err(self.refused()),
            _ => Ok(()),
        }
    }

    /// Reads a formula or a restriction; a join stands in parentheses.
    fn operand(&mut self, formula: bool, scope: usize) -> Result<(), Refused> {
        match self.look() {
            b'p' => self.atom(2),
            b'$' => match self.text.get(self.at + 1) {
                Some(b't') => self.plain(b"$true", 1),
                Some(b'f') => self.plain(b"$false", 0),
                _ => self.comparison(4),
            },
            b'~' => {
                self.at += 1;
                match self.look() {
                    b'p' => self.atom(3),
                    _ => self.comparison(5),
                }
            }
            b'(' => {
                self.open()?;
                let header = self.words;
                self.put([0; 2]);
                self.operand(formula, scope)?;
                self.join(header, formula, scope)?;
                self.close()
            }
            b'!' if formula => self.quantifier(8, scope),
            b'?' if formula => self.quantifier(9, scope),
            b'?' => {
                self.at += 1;
                self.binder(scope, 1)?;
                self.put([10]);
                self.open()?;
                self.whole(false, scope + 1)?;
                self.close()
            }
            _ => Err(self.refused()),
        }
    }

    /// Makes room for the header of a join before its first operand, which begins at a word.
    fn insert_header(&mut self, first: usize) {
        self.put([0; 2]);
        if self.words <= self.buffer.len() {
            self.buffer.copy_within(first..self.words - 2, first + 2);
        }
    }

    /// Reads the further operands of a join whose header stands at a word, behind the first one.
    fn join(&mut self, header: usize, formula: bool, scope: usize) -> Result<(), Refused> {
        let (connective, tag) = match self.look() {
            b'&' => (b'&', 6),
            b'|' => (b'|', 7),
            _ => return Err(self.refused()),
        };
        let mut operands = 1;
        while self.look() == connective {
            self.at += 1;
            self.operand(formula, scope)?;
            operands += 1;
        }
        self.set(header, tag);
        self.set(header + 1, operands);
        Ok(())
    }

    fn quantifier(&mut self, tag: i32, scope: usize) -> Result<(), Refused> {
        self.at += 1;
        let header = self.words;
        let variables = self.binder(scope, MOST_BOUND)?;
        self.put([tag, variables as i32, 0]);
        self.open()?;
        self.restriction(header, variables, scope)?;
        self.token(if tag == 8 { b"=>" } else { b"&" })?;
        self.operand(true, scope + variables)?;
        self.close()
    }

    /// Reads the restriction of a quantifier whose header stands at a word, and its excluded tuples.
    fn restriction(&mut self, header: usize, variables: usize, scope: usize) -> Result<(), Refused> {
        let inner = scope + variables;
        if self.look() != b'(' {
            return self.operand(false, inner);
        }
        self.open()?;
        let first = self.words;
        self.operand(false, inner)?;
        if self.look() == b'&' && self.at_tuple(variables) {
            let length = self.words - first;
            let mut tuples = 0;
            while self.look() == b'&' {
                self.at += 1;
                self.tuple(variables, scope)?;
                tuples += 1;
            }
            self.set(header + 2, tuples);
            if let Some(words) = self.buffer.get_mut(first..self.words) {
                words.rotate_left(length);
            }
        } else {
            self.insert_header(first);
            self.join(first, false, inner)?;
        }
        self.close()
    }

    /// Whether an excluded tuple stands behind the next connective, rather than an operand.
    fn at_tuple(&mut self, variables: usize) -> bool {
        let at = self.at;
        self.at += 1;
        if variables > 1 && self.look() == b'(' {
            self.at += 1;
        }
        let is_tuple = self.look() == b'X';
        self.at = at;
        is_tuple
    }

    /// Reads an excluded tuple of the variables from a number on.
    fn tuple(&mut self, variables: usize, scope: usize) -> Result<(), Refused> {
        if variables > 1 {
            self.open()?;
        }
        for number in 0..variables {
            if number > 0 {
                self.token(b"|")?;
            }
            self.variable(scope + number)?;
            self.token(b"!=")?;
            let number = self.number()?;
            self.put([number]);
        }
        if variables > 1 {
            self.close()?;
        }
        Ok(())
    }

    /// Reads a binder of at most so many variables and returns how many there are.
    fn binder(&mut self, scope: usize, most: usize) -> Result<usize, Refused> {
        self.token(b"[")?;
        let mut variables = 0;
        loop {
            self.variable(scope + variables)?;
            self.token(b":")?;
            self.token(b"$int")?;
            variables += 1;
            if variables == most || self.look() != b',' {
                break;
            }
            self.at += 1;
        }
        self.token(b"]")?;
        self.token(b":")?;
        Ok(variables)
    }

    fn plain(&mut self, token: &[u8], word: i32) -> Result<(), Refused> {
        self.token(token)?;
        self.put([word]);
        Ok(())
    }

    fn atom(&mut self, tag: i32) -> Result<(), Refused> {
        self.at += 1;
        let header = self.words;
        let predicate = self.digits(i32::MAX as i64)?;
        self.put([tag, predicate as i32, 0]);
        self.open()?;
        let mut terms = 0;
        loop {
            self.term()?;
            terms += 1;
            if terms == MOST_TERMS || self.look() != b',' {
                break;
            }
            self.at += 1;
        }
        self.set(header + 2, terms);
        self.close()
    }

    fn comparison(&mut self, tag: i32) -> Result<(), Refused> {
        self.token(b"$lesseq")?;
        self.open()?;
        self.token(b"$sum")?;
        self.open()?;
        let header = self.words;
        self.put([tag, 0]);
        self.term()?;
        self.token(b",")?;
        let offset = self.number()?;
        self.set(header + 1, offset);
        self.close()?;
        self.token(b",")?;
        self.term()?;
        self.close()
    }

    fn term(&mut self) -> Result<(), Refused> {
        if self.look() == b'X' {
            self.at += 1;
            let number = self.digits(i32::MAX as i64)?;
            self.put([1, number as i32]);
        } else {
            let number = self.number()?;
            self.put([0, number]);
        }
        Ok(())
    }

    fn number(&mut self) -> Result<i32, Refused> {
        if self.look() != b'-' {
            return Ok(self.digits(i32::MAX as i64)? as i32);
        }
        self.at += 1;
        match self.text.get(self.at) {
            Some(b'0') => Err(self.refused()),
            _ => Ok(-self.digits(1 << 31)? as i32),
        }
    }

    /// Reads digits up to this number, without zeros in front.
    fn digits(&mut self, most: i64) -> Result<i64, Refused> {
        let digit = |at: usize| match self.text.get(at) {
            Some(byte @ b'0'..=b'9') => Some(i64::from(byte - b'0')),
            _ => None,
        };
        let mut number = digit(self.at).ok_or((15, self.at))?;
        let mut at = self.at + 1;
        if number > 0 {
            while let Some(next) = digit(at) {
                if 10 * number + next > most {
                    break;
                }
                number = 10 * number + next;
                at += 1;
            }
        }
        self.at = at;
        Ok(number)
    }

    /// Reads the variable with this number.
    fn variable(&mut self, number: usize) -> Result<(), Refused> {
        let mut token = [b'X'; 12];
        let end = put_number(&mut token, 1, number as i32);
        self.token(&token[..end])
    }

    fn name(&mut self) -> Result<(), Refused> {
        if !self.look().is_ascii_lowercase() {
            return Err(self.refused());
        }
        let is_part = |byte: &u8| byte.is_ascii_alphanumeric() || *byte == b'_';
        let rest = &self.text[self.at..];
        self.at += rest.iter().position(|byte| !is_part(byte)).unwrap_or(rest.len());
        Ok(())
    }

    fn open(&mut self) -> Result<(), Refused> {
        self.token(b"(")?;
        if self.open == MOST_OPEN {
            return Err((4, self.at - 1));
        }
        self.open += 1;
        Ok(())
    }

    fn close(&mut self) -> Result<(), Refused> {
        self.token(b")")?;
        self.open -= 1;
        Ok(())
    }

    /// Reads blanks and a token.
    fn token(&mut self, token: &[u8]) -> Result<(), Refused> {
        self.look();
        let rest = &self.text[self.at..];
        if rest.starts_with(token) {
            self.at += token.len();
            return Ok(());
        }
        let same = rest.iter().zip(token).take_while(|(byte, other)| byte == other);
        Err((15, self.at + same.count()))
    }

    /// Reads blanks. Returns the byte behind them, or 0, which stands nowhere.
    fn look(&mut self) -> u8 {
        loop {
            match self.text.get(self.at) {
                Some(b' ' | b'\n' | b'\r') => self.at += 1,
                next => return next.copied().unwrap_or(0),
            }
        }
    }

    fn refused(&self) -> Refused {
        (15, self.at)
    }

    /// Adds words.
    fn put<const N: usize>(&mut self, words: [i32; N]) {
        if let Some(room) = self.buffer.get_mut(self.words..self.words + N) {
            room.copy_from_slice(&words);
        }
        self.words += N;
    }

    /// Changes a word that was added.
    fn set(&mut self, place: usize, word: i32) {
        if let Some(room) = self.buffer.get_mut(place) {
            *room = word;
        }
    }
}

/// Writes a policy as text to the front of a buffer (questions 1 to 7 and 12) and returns the number of bytes.
///
/// Behind the text the buffer has zeros; if the call is refused, zeros only.
pub fn write_policy(table: &[i32], policy: &[i32], buffer: &mut [u8]) -> Result<usize, Refused> {
    let length = write_text(table, policy, buffer);
    buffer[length.unwrap_or(0)..].fill(0);
    length
}

fn write_text(table: &[i32], policy: &[i32], buffer: &mut [u8]) -> Result<usize, Refused> {
    accept(check_table(table)?, policy)?;
    let mut writer = Writer {
        words: policy,
        buffer,
        at: 0,
    };
    writer.text().ok_or((12, 0))
}

/// Enough bytes for all that is put at once: an atom of six terms, a binder of four variables, or a tuple of four.
const LINE: usize = 96;

/// Bytes that are put at once.
struct Line {
    bytes: [u8; LINE],
    length: usize,
}

impl Line {
    fn new<const N: usize>(front: &[u8; N]) -> Self {
        let mut line = Line {
            bytes: [0; LINE],
            length: 0,
        };
        line.add(front);
        line
    }

    fn add<const N: usize>(&mut self, bytes: &[u8; N]) {
        self.bytes[self.length..self.length + N].copy_from_slice(bytes);
        self.length += N;
    }

    fn add_number(&mut self, number: i32) {
        self.length = put_number(&mut self.bytes, self.length, number);
    }

    fn add_term(&mut self, [kind, number]: &[i32; 2]) {
        if *kind == 1 {
            self.add(b"X");
        }
        self.add_number(*number);
    }

    fn add_binder(&mut self, scope: i32, variables: i32) {
        for number in scope..scope + variables {
            self.add(if number > scope { b"," } else { b"[" });
            self.add(b"X");
            self.add_number(number);
            self.add(b":$int");
        }
        self.add(b"]:(");
    }
}

/// Goes through the words of an accepted policy from front to back, and writes as long as there is room.
struct Writer<'a> {
    /// The words not yet written.
    words: &'a [i32],
    buffer: &'a mut [u8],
    /// The bytes written.
    at: usize,
}

impl Writer<'_> {
    fn text(&mut self) -> Option<usize> {
        self.put(b"tff(a,axiom,")?;
        self.node(0, false)?;
        self.put(b").")?;
        Some(self.at)
    }

    /// Writes the next node; a join in parentheses, if it is inside another connective.
    fn node(&mut self, scope: i32, inside: bool) -> Option<()> {
        match *self.words {
            [0, ref rest @ ..] => {
                self.words = rest;
                self.put(b"$false")
            }
            [1, ref rest @ ..] => {
                self.words = rest;
                self.put(b"$true")
            }
            [tag @ 2..=3, predicate, n, ref rest @ ..] => {
                let mut line = if tag == 2 { Line::new(b"p") } else { Line::new(b"~p") };
                line.add_number(predicate);
                let (terms, rest) = rest.split_at(2 * n as usize);
                for (place, term) in terms.as_chunks().0.iter().enumerate() {
                    line.add(if place > 0 { b"," } else { b"(" });
                    line.add_term(term);
                }
                line.add(b")");
                self.words = rest;
                self.put_line(&line)
            }
            [tag @ 4..=5, offset, kind1, number1, kind2, number2, ref rest @ ..] => {
                let mut line = if tag == 4 { Line::new(b"") } else { Line::new(b"~") };
                line.add(b"$lesseq($sum(");
                line.add_term(&[kind1, number1]);
                line.add(b",");
                line.add_number(offset);
                line.add(b"),");
                line.add_term(&[kind2, number2]);
                line.add(b")");
                self.words = rest;
                self.put_line(&line)
            }
            [tag @ 6..=7, n, ref rest @ ..] => {
                self.words = rest;
                if inside {
                    self.put(b"(")?;
                }
                self.node(scope, true)?;
                for _ in 1..n {
                    self.put(if tag == 6 { b"&" } else { b"|" })?;
                    self.node(scope, true)?;
                }
                if inside {
                    self.put(b")")?;
                }
                Some(())
            }
            [tag @ 8..=9, variables, tuples, ref rest @ ..] => {
                let (tuples, rest) = rest.split_at(variables as usize * tuples as usize);
                self.words = rest;
                self.quantifier(tag == 8, variables, tuples, scope)
            }
            [_, ref rest @ ..] => {
                self.words = rest;
                let mut line = Line::new(b"?");
                line.add_binder(scope, 1);
                self.put_line(&line)?;
                self.node(scope + 1, false)?;
                self.put(b")")
            }
            [] => None,
        }
    }

    /// Writes a quantifier, whose restriction comes next.
    fn quantifier(&mut self, all: bool, variables: i32, tuples: &[i32], scope: i32) -> Option<()> {
        let mut line = Line::new(if all { b"!" } else { b"?" });
        line.add_binder(scope, variables);
        if !tuples.is_empty() {
            line.add(b"(");
        }
        self.put_line(&line)?;
        let inner = scope + variables;
        self.node(inner, true)?;
        for tuple in tuples.chunks(variables as usize) {
            self.tuple(tuple, scope)?;
        }
        if !tuples.is_empty() {
            self.put(b")")?;
        }
        if all {
            self.put(b"=>")?;
        } else {
            self.put(b"&")?;
        }
        self.node(inner, true)?;
        self.put(b")")
    }

    /// Writes an excluded tuple of the variables from a number on, with the connective before it.
    fn tuple(&mut self, tuple: &[i32], scope: i32) -> Option<()> {
        let mut line = Line::new(b"&");
        let several = tuple.len() > 1;
        for (variable, number) in (scope..).zip(tuple) {
            if several {
                line.add(if variable > scope { b"|" } else { b"(" });
            }
            line.add(b"X");
            line.add_number(variable);
            line.add(b"!=");
            line.add_number(*number);
        }
        if several {
            line.add(b")");
        }
        self.put_line(&line)
    }

    fn put<const N: usize>(&mut self, bytes: &[u8; N]) -> Option<()> {
        self.buffer.get_mut(self.at..self.at + N)?.copy_from_slice(bytes);
        self.at += N;
        Some(())
    }

    fn put_line(&mut self, line: &Line) -> Option<()> {
        let bytes = &line.bytes[..line.length];
        let room = self.buffer.get_mut(self.at..self.at + bytes.len())?;
        room.copy_from_slice(bytes);
        self.at += bytes.len();
        Some(())
    }
}

#[cfg(test)]
mod tests {
    use inputs::{
        damage, damage_policy_text, damaged_table, deep_policy_texts, good_table, long_policy, noise_policy_text,
        policy, slipping_policy_text, spelled_policy, PolicySpelling, Random, Recipe,
    };
    use reference::Answer;

    use super::{read_policy, write_policy};
    use crate::answer;

    /// Both answers to a text, with a buffer of so many words.
    fn compare_read(table: &[i32], text: &[u8], room: usize) -> Answer {
        let (mut buffer, mut other) = (vec![-1; room], vec![-1; room]);
        let expected = reference::read_policy(table, text, &mut other);
        let result = answer(read_policy(table, text, &mut buffer));
        assert!(
            result == expected && buffer == other,
            "{result:?}, expected {expected:?}; {room} of buffer: {table:?} {}",
            text.escape_ascii()
        );
        expected
    }

    /// Both answers to a policy, with a buffer of so many bytes.
    fn compare_written(table: &[i32], policy: &[i32], room: usize) -> Answer {
        let (mut buffer, mut other) = (vec![1; room], vec![1; room]);
        let expected = reference::write_policy(table, policy, &mut other);
        let result = answer(write_policy(table, policy, &mut buffer));
        assert!(
            result == expected && buffer == other,
            "{result:?}, expected {expected:?}; {room} of buffer: {table:?} {policy:?}"
        );
        expected
    }

    #[test]
    fn reads_as_the_reference_does() {
        let random = &mut Random::new(0x7E49);
        let mut seen = [0; 16];
        for _ in 0..40_000 {
            let table = good_table(random);
            let recipe = if random.once_in(2) {
                Recipe::good(random)
            } else {
                Recipe::near_miss(random)
            };
            let words = policy(random, &table, &recipe);
            let mut text = match random.below(5) {
                0 => noise_policy_text(random, 8),
                1 => slipping_policy_text(random, &words),
                _ => {
                    let spelling = PolicySpelling::any(random);
                    spelled_policy(random, &words, spelling)
                }
            };
            if random.once_in(4) {
                damage_policy_text(random, &mut text);
            }
            let table = if random.once_in(40) {
                damaged_table(random)
            } else {
                table
            };
            let length = words.len();
            let room = random.pick(&[0, length.saturating_sub(1), length, length, length + 9]);
            seen[compare_read(&table, &text, room).number as usize] += 1;
        }
        for number in [0, 1, 4, 5, 6, 7, 12, 15] {
            assert!(seen[number] > 100, "only {} of {number}", seen[number]);
        }
    }

    #[test]
    fn reads_deep_texts_as_the_reference_does() {
        for open in [30, 60, 70, 255, 256, 257, 258] {
            for deep in deep_policy_texts(open) {
                for room in [0, 1_000] {
                    compare_read(&[1, 0, 1, 2, 0, 0], &deep.text, room);
                }
            }
        }
    }

    #[test]
    fn writes_as_the_reference_does() {
        let random = &mut Random::new(0x7E4A);
        let mut seen = [0; 16];
        for _ in 0..10_000 {
            let table = good_table(random);
            let recipe = Recipe::good(random);
            let mut words = policy(random, &table, &recipe);
            if random.once_in(3) {
                damage(random, &mut words);
            }
            let table = if random.once_in(40) {
                damaged_table(random)
            } else {
                table
            };
            let length = reference::text_of_policy(&table, &words).map_or(0, |text| text.len());
            for room in [length, length + 1, length.saturating_sub(1), random.below(length + 1)] {
                seen[compare_written(&table, &words, room).number as usize] += 1;
            }
        }
        for number in [0, 1, 3, 5, 6, 7, 12] {
            assert!(seen[number] > 100, "only {} of {number}", seen[number]);
        }
    }

    #[test]
    fn takes_so_many_words_and_no_more() {
        let table = [3, 0, 0, 2, 0, 1, 1, 1, 0];
        let random = &mut Random::new(0x7E4B);
        for (words, number) in [(1_048_576, 0), (1_048_577, 2)] {
            let policy = long_policy(random, &table, words);
            let text = spelled_policy(random, &policy, PolicySpelling::PLAIN);
            assert_eq!(compare_read(&table, &text, words).number, number);
            assert_eq!(compare_read(&table, &text, 0).number, if number == 0 { 12 } else { 2 });
            assert_eq!(compare_written(&table, &policy, text.len()).number, number);
        }
    }
}
