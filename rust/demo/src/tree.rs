//! A policy as a tree: read from its words, written to words, and with a tuple put in.

/// A term: a constant or the number of a variable.
#[derive(Clone, Copy, Debug, PartialEq, Eq)]
pub enum Term {
    /// Kind 0.
    Constant(i32),
    /// Kind 1.
    Variable(usize),
}

/// A node with all below it.
#[derive(Clone, Debug, PartialEq, Eq)]
pub enum Node {
    /// Tags 0 and 1.
    Plain(bool),
    /// Tags 2 and 3: the atom holds, or fails.
    Atom {
        holds: bool,
        predicate: usize,
        terms: Vec<Term>,
    },
    /// Tags 4 and 5: left + offset <= right holds, or fails.
    Comparison {
        holds: bool,
        offset: i32,
        left: Term,
        right: Term,
    },
    /// Tags 6 and 7: all of the children, or any of them.
    Join { all: bool, children: Vec<Node> },
    /// Tags 8 and 9: for all, or exists.
    Quantifier {
        all: bool,
        variables: usize,
        excluded: Vec<Vec<i32>>,
        restriction: Box<Node>,
        body: Box<Node>,
    },
    /// Tag 10.
    Some(Box<Node>),
}

impl Node {
    /// Reads the words of a policy that the policy check accepts. Other words may give none.
    pub fn read(words: &[i32]) -> Option<Node> {
        let mut rest = words;
        let node = read(&mut rest)?;
        rest.is_empty().then_some(node)
    }

    /// The words of the tree, in preorder.
    pub fn words(&self) -> Vec<i32> {
        let mut words = Vec::new();
        self.write(&mut words);
        words
    }

    /// The tree with the numbers of a tuple for its first variables; greater variable numbers fall.
    pub fn put(&self, tuple: &[i32]) -> Node {
        let put_term = |term: &Term| match *term {
            Term::Variable(variable) => match tuple.get(variable) {
                Some(number) => Term::Constant(*number),
                None => Term::Variable(variable - tuple.len()),
            },
            constant => constant,
        };
        match self {
            Node::Plain(truth) => Node::Plain(*truth),
            Node::Atom {
                holds,
                predicate,
                terms,
            } => Node::Atom {
                holds: *holds,
                predicate: *predicate,
                terms: terms.iter().map(put_term).collect(),
            },
            Node::Comparison {
                holds,
                offset,
                left,
                right,
            } => Node::Comparison {
                holds: *holds,
                offset: *offset,
                left: put_term(left),
                right: put_term(right),
            },
            Node::Join { all, children } => Node::Join {
                all: *all,
                children: children.iter().map(|child| child.put(tuple)).collect(),
            },
            Node::Quantifier {
                all,
                variables,
                excluded,
                restriction,
                body,
            } => Node::Quantifier {
                all: *all,
                variables: *variables,
                excluded: excluded.clone(),
                restriction: Box::new(restriction.put(tuple)),
                body: Box::new(body.put(tuple)),
            },
            Node::Some(child) => Node::Some(Box::new(child.put(tuple))),
        }
    }

    fn write(&self, words: &mut Vec<i32>) {
        match self {
            Node::Plain(truth) => words.push(i32::from(*truth)),
            Node::Atom {
                holds,
                predicate,
                terms,
            } => {
                words.extend([if *holds { 2 } else { 3 }, *predicate as i32, terms.len() as i32]);
                words.extend(terms.iter().flat_map(term_words));
            }
            Node::Comparison {
                holds,
                offset,
                left,
                right,
            } => {
                words.extend([if *holds { 4 } else { 5 }, *offset]);
                words.extend([left, right].into_iter().flat_map(term_words));
            }
            Node::Join { all, children } => {
                words.extend([if *all { 6 } else { 7 }, children.len() as i32]);
                children.iter().for_each(|child| child.write(words));
            }
            Node::Quantifier {
                all,
                variables,
                excluded,
                restriction,
                body,
            } => {
                words.extend([if *all { 8 } else { 9 }, *variables as i32, excluded.len() as i32]);
                words.extend(excluded.iter().flatten());
                restriction.write(words);
                body.write(words);
            }
            Node::Some(child) => {
                words.push(10);
                child.write(words);
            }
        }
    }
}

fn term_words(term: &Term) -> [i32; 2] {
    match *term {
        Term::Constant(number) => [0, number],
        Term::Variable(variable) => [1, variable as i32],
    }
}

/// Takes a number of words off the front.
fn take<'a>(words: &mut &'a [i32], number: usize) -> Option<&'a [i32]> {
    let (front, rest) = words.split_at_checked(number)?;
    *words = rest;
    Some(front)
}

/// Takes a word off the front that counts or numbers something.
fn count(words: &mut &[i32]) -> Option<usize> {
    usize::try_from(take(words, 1)?[0]).ok()
}

fn term(words: &mut &[i32]) -> Option<Term> {
    match *take(words, 2)? {
        [0, number] => Some(Term::Constant(number)),
        [1, variable] => Some(Term::Variable(usize::try_from(variable).ok()?)),
        _ => None,
    }
}

/// Takes a node with all below it off the front.
fn read(words: &mut &[i32]) -> Option<Node> {
    let tag = take(words, 1)?[0];
    Some(match tag {
        0 | 1 => Node::Plain(tag == 1),
        2 | 3 => Node::Atom {
            holds: tag == 2,
            predicate: count(words)?,
            terms: (0..count(words)?).map(|_| term(words)).collect::<Option<_>>()?,
        },
        4 | 5 => Node::Comparison {
            holds: tag == 4,
            offset: take(words, 1)?[0],
            left: term(words)?,
            right: term(words)?,
        },
        6 | 7 => Node::Join {
            all: tag == 6,
            children: (0..count(words)?).map(|_| read(words)).collect::<Option<_>>()?,
        },
        8 | 9 => {
            let variables = count(words)?;
            let tuples = 0..count(words)?;
            let excluded = tuples.map(|_| take(words, variables).map(<[i32]>::to_vec));
            Node::Quantifier {
                all: tag == 8,
                variables,
                excluded: excluded.collect::<Option<_>>()?,
                restriction: Box::new(read(words)?),
                body: Box::new(read(words)?),
            }
        }
        10 => Node::Some(Box::new(read(words)?)),
        _ => return None,
    })
}

#[cfg(test)]
mod tests {
    use super::*;
    use crate::names::table;
    use inputs::{policy, Random, Recipe};

    #[test]
    fn random_policies_are_read_and_written() {
        let mut random = Random::new(1);
        let mut tags = [0; 11];
        for _ in 0..2_000 {
            let recipe = Recipe::good(&mut random);
            let words = policy(&mut random, &table(), &recipe);
            vitrinehawk::check_policy(&table(), &words).expect("a good policy");
            let node = Node::read(&words).expect("an accepted policy");
            assert_eq!(node.words(), words);
            count_tags(&node, &mut tags);
            // A word too few, and a word too many.
            assert_eq!(Node::read(&words[..words.len() - 1]), None);
            assert_eq!(Node::read(&[&words[..], &[1]].concat()), None);
        }
        assert!(tags.iter().all(|seen| *seen > 100), "{tags:?}");
    }

    fn count_tags(node: &Node, tags: &mut [usize; 11]) {
        tags[node.words()[0] as usize] += 1;
        match node {
            Node::Join { children, .. } => children.iter().for_each(|child| count_tags(child, tags)),
            Node::Quantifier { restriction, body, .. } => {
                count_tags(restriction, tags);
                count_tags(body, tags);
            }
            Node::Some(child) => count_tags(child, tags),
            _ => {}
        }
    }

    #[test]
    fn other_words_are_no_tree() {
        let bad: [&[i32]; 7] = [
            &[],
            &[11],
            &[-1],
            &[2, 0, 1, 2, 7],
            &[2, -1, 1, 0, 7],
            &[6, -2],
            &[8, 1, i32::MAX],
        ];
        for words in bad {
            assert_eq!(Node::read(words), None, "{words:?}");
        }
    }

    #[test]
    fn a_tuple_is_put_in_and_variables_fall() {
        // exists x2 other than 5 with some x3 with sent(x0, x1, x2, x3): x2 + 1 > x1
        let words = [9, 1, 1, 5, 10, 2, 0, 4, 1, 0, 1, 1, 1, 2, 1, 3, 5, 1, 1, 2, 1, 1];
        let put = [9, 1, 1, 5, 10, 2, 0, 4, 0, 70, 0, 80, 1, 0, 1, 1, 5, 1, 1, 0, 0, 80];
        let node = Node::read(&words).expect("a tree");
        assert_eq!(node.put(&[70, 80]).words(), put);
        assert_eq!(node.put(&[]), node);
    }
}
