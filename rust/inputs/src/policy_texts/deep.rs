//! Texts of policies with many parentheses open at once.

/// A text of a policy with so many parentheses open at once, and never more.
#[derive(Clone, Debug)]
pub struct DeepText {
    /// What it is made of.
    pub name: String,
    /// The text.
    pub text: Vec<u8>,
    /// The byte of the parenthesis that is the first to be opened when all others are.
    pub innermost: usize,
}

/// What a text is made of, each with what stands behind it. `X#` is the first variable that is free there, and `X##`
/// the next.
struct Shape {
    name: &'static str,
    around: [&'static str; 2],
    /// How many variables are bound there.
    scope: usize,
    /// What is repeated.
    nest: [&'static str; 2],
    /// How many variables that binds.
    bound: usize,
    /// What stands around two operands in the last one.
    last: [&'static str; 2],
}

const FORMULA: Shape = Shape {
    name: "last operands",
    around: ["tff(a,axiom,", ")."],
    scope: 0,
    nest: ["$true&(", ")"],
    bound: 0,
    last: ["", ""],
};

const RESTRICTION: Shape = Shape {
    name: "last operands of a restriction",
    around: ["tff(a,axiom,![X0:$int]:((", ")=>$true))."],
    scope: 1,
    nest: ["$true|(", ")"],
    ..FORMULA
};

/// The shapes that end with operands of a formula.
const FORMULAS: [Shape; 6] = [
    FORMULA,
    Shape {
        name: "first operands",
        nest: ["(", ")|$false"],
        ..FORMULA
    },
    Shape {
        name: "operands of the same kind",
        nest: ["$true|(", ")|$true"],
        ..FORMULA
    },
    Shape {
        name: "bodies of for-alls",
        nest: ["![X#:$int]:($true=>", ")"],
        bound: 1,
        last: ["(", ")"],
        ..FORMULA
    },
    Shape {
        name: "bodies of exists",
        nest: ["?[X#:$int]:(p0(X#)&", ")"],
        bound: 1,
        last: ["(", ")"],
        ..FORMULA
    },
    Shape {
        name: "bodies of for-alls, which are first operands",
        nest: ["![X#:$int,X##:$int]:($true=>(", "))&$true"],
        bound: 2,
        ..FORMULA
    },
];

/// The shapes that end with operands of a restriction.
const RESTRICTIONS: [Shape; 4] = [
    RESTRICTION,
    Shape {
        name: "first operands of a restriction with an excluded number",
        around: ["tff(a,axiom,?[X0:$int]:(((", ")&X0!=3)&$true))."],
        nest: ["(", ")&$false"],
        ..RESTRICTION
    },
    Shape {
        name: "somes",
        around: ["tff(a,axiom,![X0:$int]:(", "=>$true))."],
        nest: ["?[X#:$int]:(", ")"],
        bound: 1,
        ..RESTRICTION
    },
    Shape {
        name: "somes that are operands",
        nest: ["$true&?[X#:$int]:(", ")"],
        bound: 1,
        ..RESTRICTION
    },
];

/// Two operands of formulas or restrictions. Their innermost parenthesis is one of each kind.
const OPERANDS: [&str; 4] = [
    "$true&$true",
    "p0(1)&$true",
    "$true|~p0(X0)",
    "$lesseq($sum(1,2),3)|$true",
];

/// Two operands of formulas.
const FORMULA_OPERANDS: [&str; 6] = [
    "![X#:$int]:(p0(X#)=>$true)&$true",
    "$true|![X#:$int]:($true=>$true)",
    "$true|?[X#:$int]:(($true&$true)&$false)",
    "$true&![X#:$int]:(($true&X#!=7)=>$false)",
    "![X#:$int,X##:$int]:(($true&(X#!=1|X##!=2))=>$true)|$true",
    "?[X#:$int,X##:$int]:((($true|$false)&(X#!=-1|X##!=0))&$true)|$false",
];

/// Two operands of restrictions.
const RESTRICTION_OPERANDS: [&str; 2] = ["?[X#:$int]:($true)&$true", "$false|?[X#:$int]:(p0(X#)|$true)"];

/// Texts of all kinds with so many parentheses open at once, at least 10.
pub fn deep_policy_texts(open: usize) -> Vec<DeepText> {
    let mut texts = Vec::new();
    for (shapes, more_operands) in [
        (&FORMULAS[..], &FORMULA_OPERANDS[..]),
        (&RESTRICTIONS, &RESTRICTION_OPERANDS),
    ] {
        for shape in shapes {
            let operands = OPERANDS.iter().chain(more_operands);
            texts.extend(operands.map(|operands| shape.text(open, operands)));
        }
    }
    texts
}

impl Shape {
    /// The text with so many parentheses open at once and these two operands at its end.
    fn text(&self, open: usize, operands: &str) -> DeepText {
        let Shape {
            name,
            around,
            scope,
            nest,
            bound,
            last,
        } = self;
        let fixed = left_open(around[0]) + left_open(last[0]) + most_open(operands);
        let (nests, left) = ((open - fixed) / left_open(nest[0]), (open - fixed) % left_open(nest[0]));
        let mut text = around[0].to_owned() + &FORMULA.nest[0].repeat(left);
        for number in 0..nests {
            text += &with_variables(nest[0], scope + number * bound);
        }
        text += last[0];
        text += &with_variables(operands, scope + nests * bound);
        text += last[1];
        text += &nest[1].repeat(nests);
        text += &FORMULA.nest[1].repeat(left);
        text += around[1];
        assert_eq!(most_open(&text), open, "{text}");
        let innermost = depths(&text).take_while(|depth| *depth < open).count();
        DeepText {
            name: format!("{name}: {operands}"),
            text: text.into_bytes(),
            innermost,
        }
    }
}

/// A piece with the next variables that are free.
fn with_variables(piece: &str, scope: usize) -> String {
    let piece = piece.replace("X##", &format!("X{}", scope + 1));
    piece.replace("X#", &format!("X{scope}"))
}

/// How many parentheses are open behind each byte.
fn depths(text: &str) -> impl Iterator<Item = usize> + '_ {
    text.bytes().scan(0, |open, byte| {
        *open += usize::from(byte == b'(');
        *open -= usize::from(byte == b')');
        Some(*open)
    })
}

/// How many parentheses are open at the end.
fn left_open(text: &str) -> usize {
    depths(text).last().unwrap_or(0)
}

/// The most parentheses that are open at once.
fn most_open(text: &str) -> usize {
    depths(text).max().unwrap_or(0)
}

#[cfg(test)]
mod tests {
    use super::*;

    #[test]
    fn shallow_ones() {
        let spelled = |text: DeepText| String::from_utf8(text.text).unwrap();
        assert_eq!(
            spelled(FORMULAS[1].text(4, "p0(1)&$true")),
            "tff(a,axiom,((p0(1)&$true)|$false)|$false)."
        );
        let inner = "![X0:$int,X1:$int]:($true=>(![X2:$int]:(p0(X2)=>$true)&$true))&$true";
        let bodies = |open| spelled(FORMULAS[5].text(open, FORMULA_OPERANDS[0]));
        assert_eq!(bodies(5), format!("tff(a,axiom,{inner})."));
        assert_eq!(bodies(6), format!("tff(a,axiom,$true&({inner}))."));
        let somes = RESTRICTIONS[2].text(4, "$true&$true");
        assert_eq!(somes.innermost, 47);
        assert_eq!(
            spelled(somes),
            "tff(a,axiom,![X0:$int]:(?[X1:$int]:(?[X2:$int]:($true&$true))=>$true))."
        );
    }
}
