//! Policies as trees, and the way back from a tree to its words.

/// A constant or a variable.
#[derive(Clone, Copy, Debug, PartialEq, Eq)]
pub enum Term {
    /// A number.
    Constant(i32),
    /// A variable in scope, numbered from 0, outermost first.
    Variable(usize),
}

/// Tags 2 to 5.
#[derive(Clone, Debug, PartialEq, Eq)]
pub struct Atom {
    /// The place of the atom's first word in the policy that was read.
    pub place: usize,
    /// False for the duals, tags 3 and 5.
    pub holds: bool,
    /// What holds, or fails.
    pub fact: Fact,
}

/// What an atom speaks of.
#[derive(Clone, Debug, PartialEq, Eq)]
pub enum Fact {
    /// A predicate's atom, known or not by the log.
    Logged {
        /// The predicate's number.
        predicate: usize,
        /// As many terms as the predicate's arity.
        terms: Vec<Term>,
    },
    /// left + offset ≤ right in whole numbers.
    Ordered {
        /// The number added on the left.
        offset: i32,
        /// Left and right.
        terms: [Term; 2],
    },
}

/// A formula: tags 0 to 9.
#[derive(Clone, Debug, PartialEq, Eq)]
pub enum Formula {
    /// Plain true or plain false.
    Plain(bool),
    /// An atom or its dual.
    Atom(Atom),
    /// All of the children, or any of them.
    Join {
        /// All of, rather than any of.
        all: bool,
        /// At least two.
        children: Vec<Formula>,
    },
    /// For all, or exists.
    Quantifier(Box<Quantifier>),
}

/// Tags 8 and 9.
#[derive(Clone, Debug, PartialEq, Eq)]
pub struct Quantifier {
    /// The place of its first word in the policy that was read.
    pub place: usize,
    /// For all, rather than exists.
    pub all: bool,
    /// The number of variables it binds, 1 to 4.
    pub variables: usize,
    /// The excluded tuples, one behind the other.
    pub excluded: Vec<i32>,
    /// Which tuples count.
    pub restriction: Restriction,
    /// What is said of them.
    pub body: Formula,
}

/// A restriction: tags 0 to 7 and 10.
#[derive(Clone, Debug, PartialEq, Eq)]
pub enum Restriction {
    /// Plain true or plain false.
    Plain(bool),
    /// An atom or its dual.
    Atom(Atom),
    /// All of the children, or any of them.
    Join {
        /// All of, rather than any of.
        all: bool,
        /// At least two.
        children: Vec<Restriction>,
    },
    /// For some value of one more variable.
    Some {
        /// The place of its first word in the policy that was read.
        place: usize,
        /// The variable it binds.
        variable: usize,
        /// What holds of that value.
        child: Box<Restriction>,
    },
}

impl Term {
    /// Puts `tuple` in for the variables 0, 1, ...; greater numbers fall.
    fn put_in(self, tuple: &[i32]) -> Term {
        match self {
            Term::Variable(number) => match tuple.get(number) {
                Some(&value) => Term::Constant(value),
                None => Term::Variable(number - tuple.len()),
            },
            constant => constant,
        }
    }

    fn write(self, words: &mut Vec<i32>) {
        match self {
            Term::Constant(value) => words.extend([0, value]),
            Term::Variable(number) => words.extend([1, word(number)]),
        }
    }
}

impl Fact {
    /// The terms, in order.
    pub fn terms(&self) -> &[Term] {
        match self {
            Fact::Logged { terms, .. } => terms,
            Fact::Ordered { terms, .. } => terms,
        }
    }
}

impl Atom {
    /// The predicate, unless the atom is a comparison.
    pub fn predicate(&self) -> Option<usize> {
        match self.fact {
            Fact::Logged { predicate, .. } => Some(predicate),
            Fact::Ordered { .. } => None,
        }
    }

    /// Whether a restriction binds variables by this atom: it is of tag 2.
    pub fn binds(&self) -> bool {
        self.holds && self.predicate().is_some()
    }

    fn put_in(&self, tuple: &[i32]) -> Atom {
        let fact = match &self.fact {
            Fact::Logged { predicate, terms } => Fact::Logged {
                predicate: *predicate,
                terms: terms.iter().map(|term| term.put_in(tuple)).collect(),
            },
            Fact::Ordered { offset, terms } => Fact::Ordered {
                offset: *offset,
                terms: terms.map(|term| term.put_in(tuple)),
            },
        };
        Atom { fact, ..*self }
    }

    fn write(&self, words: &mut Vec<i32>) {
        let dual = i32::from(!self.holds);
        match &self.fact {
            Fact::Logged { predicate, terms } => {
                words.extend([2 + dual, word(*predicate), word(terms.len())]);
            }
            Fact::Ordered { offset, .. } => words.extend([4 + dual, *offset]),
        }
        for term in self.fact.terms() {
            term.write(words);
        }
    }
}

impl Formula {
    /// Puts `tuple` in for the variables 0, 1, ...; greater numbers fall.
    pub fn put_in(&self, tuple: &[i32]) -> Formula {
        match self {
            Formula::Plain(value) => Formula::Plain(*value),
            Formula::Atom(atom) => Formula::Atom(atom.put_in(tuple)),
            Formula::Join { all, children } => Formula::Join {
                all: *all,
                children: children.iter().map(|child| child.put_in(tuple)).collect(),
            },
            Formula::Quantifier(quantifier) => Formula::Quantifier(Box::new(Quantifier {
                excluded: quantifier.excluded.clone(),
                restriction: quantifier.restriction.put_in(tuple),
                body: quantifier.body.put_in(tuple),
                ..**quantifier
            })),
        }
    }

    /// The words of the formula.
    pub fn to_words(&self) -> Vec<i32> {
        let mut words = Vec::new();
        self.write(&mut words);
        words
    }

    fn write(&self, words: &mut Vec<i32>) {
        match self {
            Formula::Plain(value) => words.push(i32::from(*value)),
            Formula::Atom(atom) => atom.write(words),
            Formula::Join { all, children } => {
                words.extend([if *all { 6 } else { 7 }, word(children.len())]);
                for child in children {
                    child.write(words);
                }
            }
            Formula::Quantifier(quantifier) => {
                let tuples = quantifier.excluded.len() / quantifier.variables;
                words.push(if quantifier.all { 8 } else { 9 });
                words.extend([word(quantifier.variables), word(tuples)]);
                words.extend(&quantifier.excluded);
                quantifier.restriction.write(words);
                quantifier.body.write(words);
            }
        }
    }
}

impl Restriction {
    fn put_in(&self, tuple: &[i32]) -> Restriction {
        match self {
            Restriction::Plain(value) => Restriction::Plain(*value),
            Restriction::Atom(atom) => Restriction::Atom(atom.put_in(tuple)),
            Restriction::Join { all, children } => Restriction::Join {
                all: *all,
                children: children.iter().map(|child| child.put_in(tuple)).collect(),
            },
            Restriction::Some { place, variable, child } => Restriction::Some {
                place: *place,
                variable: variable - tuple.len(),
                child: Box::new(child.put_in(tuple)),
            },
        }
    }

    fn write(&self, words: &mut Vec<i32>) {
        match self {
            Restriction::Plain(value) => words.push(i32::from(*value)),
            Restriction::Atom(atom) => atom.write(words),
            Restriction::Join { all, children } => {
                words.extend([if *all { 6 } else { 7 }, word(children.len())]);
                for child in children {
                    child.write(words);
                }
            }
            Restriction::Some { child, .. } => {
                words.push(10);
                child.write(words);
            }
        }
    }
}

/// A count or a number as a word.
fn word(number: usize) -> i32 {
    i32::try_from(number).expect("counts and numbers of a policy fit a word")
}
