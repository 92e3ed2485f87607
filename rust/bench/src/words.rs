//! The words of policies, made from their parts.

/// A constant.
pub fn constant(value: i32) -> [i32; 2] {
    [0, value]
}

/// A variable.
pub fn variable(number: i32) -> [i32; 2] {
    [1, number]
}

/// An atom holds.
pub fn holds(predicate: i32, terms: &[[i32; 2]]) -> Vec<i32> {
    [&[2, predicate, terms.len() as i32], terms.as_flattened()].concat()
}

/// An atom fails.
pub fn fails(predicate: i32, terms: &[[i32; 2]]) -> Vec<i32> {
    [&[3, predicate, terms.len() as i32], terms.as_flattened()].concat()
}

/// The left term and an offset are at most the right term.
pub fn at_most(left: [i32; 2], offset: i32, right: [i32; 2]) -> Vec<i32> {
    [&[4, offset], &left[..], &right[..]].concat()
}

/// All of (tag 6) or any of (tag 7) some children.
pub fn join(tag: i32, children: &[Vec<i32>]) -> Vec<i32> {
    [vec![tag, children.len() as i32], children.concat()].concat()
}

/// All of some children.
pub fn all_of(children: &[Vec<i32>]) -> Vec<i32> {
    join(6, children)
}

/// Any of some children.
pub fn any_of(children: &[Vec<i32>]) -> Vec<i32> {
    join(7, children)
}

/// For all tuples of so many variables that meet a restriction.
pub fn for_all(variables: i32, restriction: &[i32], body: &[i32]) -> Vec<i32> {
    [&[8, variables, 0], restriction, body].concat()
}

/// For some tuple of so many variables that meets a restriction.
pub fn exists(variables: i32, restriction: &[i32], body: &[i32]) -> Vec<i32> {
    [&[9, variables, 0], restriction, body].concat()
}
