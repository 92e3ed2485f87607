//! Policies in the TPTP typed form: the tree of a text, and question 15.
//!
//! ```text
//! text        = "tff" "(" name "," "axiom" "," whole ")" "."
//! whole       = single / join
//! operand     = single / "(" join ")"
//! join        = operand 1*("&" operand) / operand 1*("|" operand)
//! single      = "$true" / "$false" / ["~"] atom / quantifier      in restrictions a some, and no quantifier
//! atom        = predicate "(" term *("," term) ")"                one to six terms
//!             / "$lesseq" "(" "$sum" "(" term "," number ")" "," term ")"
//! quantifier  = "!" binder "(" restriction "=>" operand ")"
//!             / "?" binder "(" restriction "&" operand ")"
//! some        = "?" binder "(" whole ")"                          a binder of one variable
//! binder      = "[" variable ":" "$int" *("," variable ":" "$int") "]" ":"
//! restriction = operand / "(" operand 1*("&" excluded) ")"
//! excluded    = unequal / "(" unequal 1*("|" unequal) ")"         all variables of the binder, in order
//! unequal     = variable "!=" number
//! term        = variable / number
//! ```
//!
//! A binder has one to four variables, the next free ones. Blanks may stand around tokens: what is quoted above, names,
//! predicates, variables and numbers. At most 256 parentheses are open at once, those of atoms too.

use std::mem;
use std::ops::Range;

use crate::answer::{Question, Refused};

/// The greatest number of parentheses that are open at once.
const MOST_OPEN: usize = 256;

/// The greatest number of terms of an atom.
const MOST_TERMS: usize = 6;

/// The greatest number of variables that a quantifier binds.
const MOST_BOUND: usize = 4;

/// The tree of a text. Its predicates need not exist, and its variables need not be in scope.
#[derive(Clone, Debug, PartialEq, Eq)]
pub enum Node {
    /// Plain true or plain false.
    Plain(bool),
    /// The atom of a predicate.
    Atom {
        /// It holds, rather than fails.
        holds: bool,
        /// The predicate's number.
        predicate: i32,
        /// One to six.
        terms: Vec<Term>,
    },
    /// left + offset ≤ right in whole numbers.
    Comparison {
        /// It holds, rather than fails.
        holds: bool,
        /// The number added on the left.
        offset: i32,
        /// Left and right.
        terms: [Term; 2],
    },
    /// All of the children, or any of them.
    Join {
        /// All of, rather than any of.
        all: bool,
        /// At least two.
        children: Vec<Node>,
    },
    /// For all, or exists.
    Quantifier {
        /// For all, rather than exists.
        all: bool,
        /// The number of variables it binds, 1 to 4.
        variables: usize,
        /// The excluded tuples, one behind the other.
        excluded: Vec<i32>,
        /// Restriction and body.
        parts: Vec<Node>,
    },
    /// For some value of one more variable.
    Some(Box<Node>),
}

/// A constant or a variable.
#[derive(Clone, Copy, Debug, PartialEq, Eq)]
pub enum Term {
    /// A number.
    Constant(i32),
    /// A variable's number.
    Variable(i32),
}

/// Question 15, and question 4 of parentheses: reads the tree of a text. The place is the first byte that cannot stand
/// there, or the length; or the byte of the parenthesis.
pub fn read_tree(text: &[u8]) -> Result<Node, Refused> {
    let mut reader = Reader { text, next: 0, open: 0 };
    reader.token("tff")?;
    reader.open()?;
    reader.name()?;
    reader.token(",")?;
    reader.token("axiom")?;
    reader.token(",")?;
    let root = reader.formula()?;
    reader.token(".")?;
    match reader.look() {
        Some(_) => Err(reader.refused()),
        None => Ok(root),
    }
}

/// What a parenthesis is for that holds operands.
#[derive(Clone, Copy)]
enum Role {
    /// The text's first one holds the formula.
    Text,
    /// One around a join.
    Join {
        /// It is an operand of formulas, rather than of restrictions.
        formula: bool,
    },
    /// One around a quantifier's restriction, which is a join or has excluded tuples.
    Restriction {
        /// How many the quantifier binds.
        variables: usize,
    },
    /// One behind the binder of a quantifier holds its restriction and its body.
    Quantifier {
        /// For all, rather than exists.
        all: bool,
        /// How many it binds.
        variables: usize,
    },
    /// One behind the binder of a "some" holds its child.
    Some,
}

/// An open parenthesis that holds operands, and what was read behind it.
struct Group {
    role: Role,
    /// The number of variables in scope.
    scope: usize,
    /// The operands.
    operands: Vec<Node>,
    /// Whether they are joined by all-of or any-of, if they are.
    all: Option<bool>,
    /// The excluded tuples of a quantifier or its restriction.
    excluded: Vec<i32>,
}

impl Group {
    fn new(role: Role, scope: usize) -> Self {
        Group {
            role,
            scope,
            operands: Vec::new(),
            all: None,
            excluded: Vec::new(),
        }
    }

    /// Whether the next operand is a formula, rather than a restriction.
    fn wants_formula(&self) -> bool {
        match self.role {
            Role::Text => true,
            Role::Join { formula } => formula,
            Role::Restriction { .. } | Role::Some => false,
            Role::Quantifier { .. } => self.operands.len() == 1,
        }
    }

    /// Whether the parenthesis may close behind these operands. A join stands in no parentheses where it is not inside
    /// another connective.
    fn is_whole(&self) -> bool {
        match (self.role, &self.operands[..]) {
            (Role::Text | Role::Some, [single]) => !matches!(single, Node::Join { .. }),
            (_, operands) => operands.len() >= 2,
        }
    }

    /// What the parenthesis holds.
    fn into_node(mut self) -> Node {
        if let Role::Quantifier { all, variables } = self.role {
            return Node::Quantifier {
                all,
                variables,
                excluded: self.excluded,
                parts: self.operands,
            };
        }
        let joined = match self.all {
            Some(all) => Node::Join {
                all,
                children: self.operands,
            },
            None => self.operands.remove(0),
        };
        match self.role {
            Role::Some => Node::Some(Box::new(joined)),
            _ => joined,
        }
    }

    /// Adds what an inner parenthesis holds.
    fn add(&mut self, mut inner: Group) {
        if let Role::Restriction { .. } = inner.role {
            self.excluded = mem::take(&mut inner.excluded);
        }
        self.operands.push(inner.into_node());
    }
}

/// Goes through the text from front to back.
struct Reader<'a> {
    text: &'a [u8],
    /// The first byte not yet read.
    next: usize,
    /// The number of open parentheses.
    open: usize,
}

impl Reader<'_> {
    /// Reads the formula behind the text's first parenthesis, and the one that closes it.
    fn formula(&mut self) -> Result<Node, Refused> {
        let mut outer = Vec::new();
        let mut group = Group::new(Role::Text, 0);
        loop {
            // Down to an operand with no other one in it.
            while let Some(inner) = self.inner(&group)? {
                outer.push(mem::replace(&mut group, inner));
            }
            group.operands.push(self.leaf()?);
            // Up to a parenthesis with one more operand.
            while !self.goes_on(&mut group)? {
                self.close()?;
                let Some(above) = outer.pop() else {
                    return Ok(group.into_node());
                };
                let inner = mem::replace(&mut group, above);
                group.add(inner);
            }
        }
    }

    /// Opens a parenthesis that holds operands, if the next operand of a group begins with one or with a binder.
    fn inner(&mut self, group: &Group) -> Result<Option<Group>, Refused> {
        let formula = group.wants_formula();
        let (role, bound) = match (self.look(), group.role) {
            (Some(b'('), Role::Quantifier { variables, .. }) if !formula => (Role::Restriction { variables }, 0),
            (Some(b'('), _) => (Role::Join { formula }, 0),
            (Some(byte @ (b'!' | b'?')), _) if formula => {
                self.next += 1;
                let variables = self.binder(group.scope, MOST_BOUND)?;
                let all = byte == b'!';
                (Role::Quantifier { all, variables }, variables)
            }
            (Some(b'?'), _) => {
                self.next += 1;
                (Role::Some, self.binder(group.scope, 1)?)
            }
            _ => return Ok(None),
        };
        self.open()?;
        Ok(Some(Group::new(role, group.scope + bound)))
    }

    /// Reads from an operand of a group to the next one. False if there is none, and the parenthesis has to close.
    fn goes_on(&mut self, group: &mut Group) -> Result<bool, Refused> {
        if let Role::Quantifier { all, .. } = group.role {
            if group.is_whole() {
                return Ok(false);
            }
            self.token(if all { "=>" } else { "&" })?;
            return Ok(true);
        }
        let all = match self.look() {
            Some(b'&') => true,
            Some(b'|') => false,
            _ if group.is_whole() => return Ok(false),
            _ => return Err(self.refused()),
        };
        if group.all == Some(!all) {
            return Err(self.refused());
        }
        self.next += 1;
        if let (Role::Restriction { variables }, true, None) = (group.role, all, group.all) {
            if self.at_tuple(variables) {
                group.excluded = self.tuples(group.scope - variables..group.scope)?;
                return Ok(false);
            }
        }
        group.all = Some(all);
        Ok(true)
    }

    /// Whether an excluded tuple of so many variables stands next, rather than an operand.
    fn at_tuple(&self, variables: usize) -> bool {
        let mut ahead = Reader { ..*self };
        if variables > 1 && ahead.look() == Some(b'(') {
            ahead.next += 1;
        }
        ahead.look() == Some(b'X')
    }

    /// Reads excluded tuples of these variables, as many as there are.
    fn tuples(&mut self, variables: Range<usize>) -> Result<Vec<i32>, Refused> {
        let mut tuples = Vec::new();
        loop {
            if variables.len() > 1 {
                self.open()?;
            }
            for variable in variables.clone() {
                if variable > variables.start {
                    self.token("|")?;
                }
                self.variable(variable)?;
                self.token("!=")?;
                tuples.push(self.number()?);
            }
            if variables.len() > 1 {
                self.close()?;
            }
            if !self.take(b'&') {
                return Ok(tuples);
            }
        }
    }

    /// Reads at most so many variables with their types, the first ones that are free, and returns how many there are.
    fn binder(&mut self, scope: usize, most: usize) -> Result<usize, Refused> {
        self.token("[")?;
        let mut variables = 0;
        loop {
            self.variable(scope + variables)?;
            self.token(":")?;
            self.token("$int")?;
            variables += 1;
            if variables == most || !self.take(b',') {
                break;
            }
        }
        self.token("]")?;
        self.token(":")?;
        Ok(variables)
    }

    /// Reads a plain node, an atom or a comparison.
    fn leaf(&mut self) -> Result<Node, Refused> {
        let holds = !self.take(b'~');
        let first = self.look();
        let second = self.text.get(self.next + 1);
        match (first, second) {
            (Some(b'p'), _) => self.atom(holds),
            (Some(b'$'), Some(b't')) if holds => self.token("$true").map(|()| Node::Plain(true)),
            (Some(b'$'), Some(b'f')) if holds => self.token("$false").map(|()| Node::Plain(false)),
            (Some(b'$'), _) => self.comparison(holds),
            _ => Err(self.refused()),
        }
    }

    /// Reads the atom of a predicate.
    fn atom(&mut self, holds: bool) -> Result<Node, Refused> {
        self.token("p")?;
        let predicate = self.digits(i32::MAX.into())? as i32;
        self.open()?;
        let mut terms = vec![self.term()?];
        while terms.len() < MOST_TERMS && self.take(b',') {
            terms.push(self.term()?);
        }
        self.close()?;
        Ok(Node::Atom {
            holds,
            predicate,
            terms,
        })
    }

    fn comparison(&mut self, holds: bool) -> Result<Node, Refused> {
        self.token("$lesseq")?;
        self.open()?;
        self.token("$sum")?;
        self.open()?;
        let left = self.term()?;
        self.token(",")?;
        let offset = self.number()?;
        self.close()?;
        self.token(",")?;
        let right = self.term()?;
        self.close()?;
        Ok(Node::Comparison {
            holds,
            offset,
            terms: [left, right],
        })
    }

    fn term(&mut self) -> Result<Term, Refused> {
        if self.take(b'X') {
            let number = self.digits(i32::MAX.into())?;
            return Ok(Term::Variable(number as i32));
        }
        self.number().map(Term::Constant)
    }

    /// Reads a number of 32 bits. Behind a minus it begins with a digit other than 0.
    fn number(&mut self) -> Result<i32, Refused> {
        if !self.take(b'-') {
            return self.digits(i32::MAX.into()).map(|number| number as i32);
        }
        if self.peek() == Some(b'0') {
            return Err(self.refused());
        }
        self.digits(-i64::from(i32::MIN)).map(|number| -number as i32)
    }

    /// Reads as many digits as a number up to this one may have, and at least one. There are no zeros in front.
    fn digits(&mut self, most: i64) -> Result<i64, Refused> {
        let mut number = None;
        while let Some(digit @ b'0'..=b'9') = self.peek() {
            let longer = 10 * number.unwrap_or(0) + i64::from(digit - b'0');
            if number == Some(0) || longer > most {
                break;
            }
            number = Some(longer);
            self.next += 1;
        }
        number.ok_or(self.refused())
    }

    /// Reads the variable with this number.
    fn variable(&mut self, number: usize) -> Result<(), Refused> {
        self.token(&format!("X{number}"))
    }

    /// Reads the text's name.
    fn name(&mut self) -> Result<(), Refused> {
        if !matches!(self.look(), Some(b'a'..=b'z')) {
            return Err(self.refused());
        }
        while matches!(self.peek(), Some(b'a'..=b'z' | b'A'..=b'Z' | b'0'..=b'9' | b'_')) {
            self.next += 1;
        }
        Ok(())
    }

    /// Reads an opening parenthesis. Question 4 asks whether there may be one more.
    fn open(&mut self) -> Result<(), Refused> {
        self.token("(")?;
        if self.open == MOST_OPEN {
            return Err(Question::Level.at(self.next - 1));
        }
        self.open += 1;
        Ok(())
    }

    /// Reads a closing parenthesis.
    fn close(&mut self) -> Result<(), Refused> {
        self.token(")")?;
        self.open -= 1;
        Ok(())
    }

    /// Reads blanks and this token.
    fn token(&mut self, token: &str) -> Result<(), Refused> {
        self.look();
        for byte in token.bytes() {
            if self.peek() != Some(byte) {
                return Err(self.refused());
            }
            self.next += 1;
        }
        Ok(())
    }

    /// Reads blanks and this byte, if it is the next one.
    fn take(&mut self, byte: u8) -> bool {
        let is_next = self.look() == Some(byte);
        self.next += usize::from(is_next);
        is_next
    }

    /// Reads blanks. The byte behind them, if there is one.
    fn look(&mut self) -> Option<u8> {
        while let Some(b' ' | b'\n' | b'\r') = self.peek() {
            self.next += 1;
        }
        self.peek()
    }

    /// The next byte, if there is one.
    fn peek(&self) -> Option<u8> {
        self.text.get(self.next).copied()
    }

    /// The refusal at the next byte, or at the end.
    fn refused(&self) -> Refused {
        Question::Tptp.at(self.next)
    }
}
