//! Policies in the TPTP typed form: what is read and written, and question 15.

use inputs::{deep_policy_texts, good_table, policy, spelled_policy, PolicySpelling, Random, Recipe};
use reference::{check_policy, policy_of_text, read_policy, text_of_policy, write_policy, Answer};

/// send (open), consent (complete), believes (its argument is an input, open).
const T: [i32; 9] = [3, 0, 0, 2, 0, 1, 1, 1, 0];

const F: [i32; 17] = [8, 3, 0, 2, 0, 3, 1, 0, 1, 1, 1, 2, 2, 2, 1, 1, 1];

/// A formula as the text of a policy.
fn text(formula: &str) -> String {
    format!("tff(a,axiom,{formula}).")
}

/// Reads with a buffer of so many words, full of other words at first.
fn read(text: &[u8], room: usize) -> (Answer, Vec<i32>) {
    let mut buffer = vec![-5; room];
    let answer = read_policy(&T, text, &mut buffer);
    (answer, buffer)
}

/// Writes with a buffer of so many bytes, full of other bytes at first.
fn written(policy: &[i32], room: usize) -> (Answer, Vec<u8>) {
    let mut buffer = vec![b'x'; room];
    let answer = write_policy(&T, policy, &mut buffer);
    (answer, buffer)
}

/// Checks that a text has these words: with a buffer that just fits, with more and with less.
#[track_caller]
fn gives(text: impl AsRef<[u8]>, policy: &[i32]) {
    let (text, length) = (text.as_ref(), policy.len());
    let accepted = Answer::accepted(length);
    assert_eq!(read(text, length), (accepted, policy.to_vec()));
    assert_eq!(read(text, length + 3), (accepted, [policy, &[0; 3]].concat()));
    for less in [0, length - 1] {
        assert_eq!(read(text, less), (Answer::refused(12, 0), vec![0; less]));
    }
}

/// Checks that a formula has these words, and that they are written so.
#[track_caller]
fn is(formula: &str, policy: &[i32]) {
    let text = text(formula).into_bytes();
    let length = text.len();
    gives(&text, policy);
    let accepted = Answer::accepted(length);
    assert_eq!(written(policy, length), (accepted, text.clone()));
    assert_eq!(written(policy, length + 2), (accepted, [&text[..], &[0, 0]].concat()));
    for less in [0, length - 1] {
        assert_eq!(written(policy, less), (Answer::refused(12, 0), vec![0; less]));
    }
}

/// Checks that a text is refused, whatever the buffer, and leaves zeros.
#[track_caller]
fn text_refused(text: impl AsRef<[u8]>, number: u32, place: usize) {
    let text = text.as_ref();
    let answer = Answer::refused(number, place);
    assert_eq!(read(text, 40), (answer, vec![0; 40]), "{}", text.escape_ascii());
    assert_eq!(read(text, 0), (answer, vec![]), "{}", text.escape_ascii());
}

/// Checks that a formula is refused by question 15 at the byte that is marked by `^` before it.
#[track_caller]
fn stops(marked: &str) {
    let marked = text(marked);
    let place = marked.find('^').expect("it is marked");
    text_refused(marked.replacen('^', "", 1), 15, place);
}

#[test]
fn each_tag() {
    is("$false", &[0]);
    is("$true", &[1]);
    is("p0(7,-9,100)", &[2, 0, 3, 0, 7, 0, -9, 0, 100]);
    is("~p1(0,2147483647)", &[3, 1, 2, 0, 0, 0, i32::MAX]);
    is("$lesseq($sum(1,-2147483648),2)", &[4, i32::MIN, 0, 1, 0, 2]);
    is("~$lesseq($sum(1,2),3)", &[5, 2, 0, 1, 0, 3]);
    is("$true&$false&p2(9)", &[6, 3, 1, 0, 2, 2, 1, 0, 9]);
    is("$true|$false", &[7, 2, 1, 0]);
    is("![X0:$int,X1:$int,X2:$int]:(p0(X0,X1,X2)=>p2(X1))", &F);
    is(
        "?[X0:$int]:(p1(9,X0)&$lesseq($sum(X0,0),100))",
        &[9, 1, 0, 2, 1, 2, 0, 9, 1, 0, 4, 0, 1, 0, 0, 100],
    );
    is(
        "?[X0:$int]:(?[X1:$int]:(p1(X0,X1)&$true)&$true)",
        &[9, 1, 0, 10, 6, 2, 2, 1, 2, 1, 0, 1, 1, 1, 1],
    );
}

#[test]
fn parentheses_of_joins() {
    is("($true|$false)&$true", &[6, 2, 7, 2, 1, 0, 1]);
    is("($true&$false)&$true", &[6, 2, 6, 2, 1, 0, 1]);
    is("$true|p2(1)|($true&$false)", &[7, 3, 1, 2, 2, 1, 0, 1, 6, 2, 1, 0]);
    is(
        "(($true&$true)|$true)&($true|($true&$true))",
        &[6, 2, 7, 2, 6, 2, 1, 1, 1, 7, 2, 1, 6, 2, 1, 1],
    );
    // Restrictions and bodies.
    is(
        "![X0:$int]:((p1(X0,1)|p1(1,X0))=>($true&$false))",
        &[8, 1, 0, 7, 2, 2, 1, 2, 1, 0, 0, 1, 2, 1, 2, 0, 1, 1, 0, 6, 2, 1, 0],
    );
    is(
        "?[X0:$int]:((p1(X0,1)&$true)&($true|$false))",
        &[9, 1, 0, 6, 2, 2, 1, 2, 1, 0, 0, 1, 1, 7, 2, 1, 0],
    );
    // Quantifiers and "some" have parentheses of their own.
    is(
        "![X0:$int]:(p1(X0,1)=>?[X1:$int]:(p1(X0,X1)&$true))&$true",
        &[6, 2, 8, 1, 0, 2, 1, 2, 1, 0, 0, 1, 9, 1, 0, 2, 1, 2, 1, 0, 1, 1, 1, 1],
    );
    is(
        "![X0:$int]:((p1(X0,1)&?[X1:$int]:(p1(X1,X0)|p1(X0,X1)))=>$true)",
        &[
            8, 1, 0, 6, 2, 2, 1, 2, 1, 0, 0, 1, 10, 7, 2, 2, 1, 2, 1, 1, 1, 0, 2, 1, 2, 1, 0, 1, 1, 1,
        ],
    );
}

#[test]
fn excluded_tuples() {
    is(
        "p2(9)&![X0:$int,X1:$int,X2:$int]:((p0(X0,X1,X2)&(X0!=7|X1!=9|X2!=100))=>p2(X1))",
        &[
            6, 2, 2, 2, 1, 0, 9, 8, 3, 1, 7, 9, 100, 2, 0, 3, 1, 0, 1, 1, 1, 2, 2, 2, 1, 1, 1,
        ],
    );
    is(
        "?[X0:$int]:((p1(X0,1)&X0!=7&X0!=-8)&$true)",
        &[9, 1, 2, 7, -8, 2, 1, 2, 1, 0, 0, 1, 1],
    );
    is(
        "![X0:$int]:(((p1(X0,1)&$true)&X0!=7)=>($true|$false))",
        &[8, 1, 1, 7, 6, 2, 2, 1, 2, 1, 0, 0, 1, 1, 7, 2, 1, 0],
    );
    is(
        "![X0:$int]:(((p1(X0,1)|p1(X0,2))&X0!=7)=>$true)",
        &[8, 1, 1, 7, 7, 2, 2, 1, 2, 1, 0, 0, 1, 2, 1, 2, 1, 0, 0, 2, 1],
    );
    is(
        "![X0:$int]:(p1(X0,0)=>![X1:$int,X2:$int]:((p1(X1,X2)&(X1!=1|X2!=2)&(X1!=3|X2!=4))=>$true))",
        &[
            8, 1, 0, 2, 1, 2, 1, 0, 0, 0, 8, 2, 2, 1, 2, 3, 4, 2, 1, 2, 1, 1, 1, 2, 1,
        ],
    );
}

#[test]
fn names() {
    let words = [3, 2, 1, 0, -7];
    for name in ["a", "z", "aB_9", "tff", "axiom", "p0", "a__", "int"] {
        gives(format!("tff({name},axiom,~p2(-7))."), &words);
    }
    text_refused("tff(,axiom,$true).", 15, 4);
    for bad in ["A", "0", "_", "$", "'", "\u{e9}"] {
        text_refused(format!("tff({bad},axiom,$true)."), 15, 4);
        text_refused(format!("tff({bad}a,axiom,$true)."), 15, 4);
    }
    for bad in ["-", "$", "'", ".", "\u{e9}", "@", "[", "`", "{", "/", ":"] {
        text_refused(format!("tff(a{bad},axiom,$true)."), 15, 5);
    }
    text_refused("tff(a b,axiom,$true).", 15, 6);
}

/// The tokens of a text, and its words.
const TOKENS: [&str; 46] = [
    "tff", "(", "aB_9", ",", "axiom", ",", "!", "[", "X0", ":", "$int", "]", ":", "(", "(", "p1", "(", "X0", ",", "10",
    ")", "&", "X0", "!=", "-77", ")", "=>", "(", "~", "$lesseq", "(", "$sum", "(", "X0", ",", "-12", ")", ",", "3",
    ")", "|", "$false", ")", ")", ")", ".",
];
const TOKENS_WORDS: [i32; 20] = [8, 1, 1, -77, 2, 1, 2, 1, 0, 0, 10, 7, 2, 5, -12, 1, 0, 0, 3, 0];

#[test]
fn blanks() {
    for blank in [" ", "\n", "\r", "\r\n", " \n\r  "] {
        let spaced = TOKENS.map(|token| blank.to_owned() + token).concat();
        gives(spaced + blank, &TOKENS_WORDS);
        for number in 0..=TOKENS.len() {
            let (front, rest) = TOKENS.split_at(number);
            gives(front.concat() + blank + &rest.concat(), &TOKENS_WORDS);
        }
        // Not inside a token. Where a front part of it is a token, the place is behind the blanks.
        for (number, token) in TOKENS.iter().enumerate() {
            for cut in 1..token.len() {
                let front = TOKENS[..number].concat() + &token[..cut];
                let rest = token[cut..].to_owned() + &TOKENS[number + 1..].concat();
                let is_token = *token == "aB_9" || front.ends_with(char::is_numeric);
                let place = front.len() + if is_token { blank.len() } else { 0 };
                text_refused(front + blank + &rest, 15, place);
            }
        }
    }
    // Nothing else is a blank: here only blanks and one other byte can stand.
    for byte in 0..=255 {
        let with = |place: usize| {
            let (front, rest) = b"tff(a,axiom,$true).".split_at(place);
            [front, &[byte], rest].concat()
        };
        for (place, other) in [(0, b't'), (3, b'('), (18, b'.'), (19, b' ')] {
            match byte {
                b' ' | b'\n' | b'\r' => gives(with(place), &[1]),
                _ => text_refused(with(place), 15, place + usize::from(byte == other)),
            }
        }
    }
}

#[test]
fn where_a_text_ends() {
    text_refused("", 15, 0);
    text_refused("  ", 15, 2);
    text_refused("%", 15, 0);
    // Every cut is refused at its end.
    let whole = TOKENS.join(" ");
    for length in 0..whole.len() {
        text_refused(&whole[..length], 15, length);
    }
    gives(&whole, &TOKENS_WORDS);
    for behind in [".", "%", "a", "tff(b,axiom,$true).", "\0"] {
        text_refused(text("$true") + behind, 15, 19);
        text_refused(text("$true") + "\r\n" + behind, 15, 21);
    }
    for (bad, place) in [
        ("fof(a,axiom,$true).", 0),
        ("tfff(a,axiom,$true).", 3),
        ("TFF(a,axiom,$true).", 0),
        ("tff[a,axiom,$true].", 3),
        ("tff(a,conjecture,$true).", 6),
        ("tff(a,axioms,$true).", 11),
        ("tff(a,axiom).", 11),
        ("tff(a,axiom,).", 12),
        ("tff(a,axiom,$true,b).", 17),
        ("tff(a,axiom,$true)", 18),
        ("tff(a,axiom,$true))", 18),
        ("tff(a,axiom,$true.", 17),
    ] {
        text_refused(bad, 15, place);
    }
}

#[test]
fn numbers() {
    for (number, word) in [
        ("0", 0),
        ("1", 1),
        ("-1", -1),
        ("9", 9),
        ("10", 10),
        ("-10", -10),
        ("1000000000", 1_000_000_000),
        ("2147483647", i32::MAX),
        ("-2147483648", i32::MIN),
    ] {
        is(&format!("p2({number})"), &[2, 2, 1, 0, word]);
        is(
            &format!("$lesseq($sum({number},{number}),{number})"),
            &[4, word, 0, word, 0, word],
        );
        is(
            &format!("![X0:$int]:((p1(X0,0)&X0!={number})=>$true)"),
            &[8, 1, 1, word, 2, 1, 2, 1, 0, 0, 0, 1],
        );
    }
    for bad in [
        "0^1",
        "0^0",
        "-^0",
        "-^01",
        "-^-1",
        "-^)",
        "-^ 1",
        "^+1",
        "^)",
        "^,",
        "^a",
        "1^a",
        "1^.0",
        "1^-",
        "1 ^1",
        "214748364^8",
        "-214748364^9",
        "2147483647^0",
        "-2147483648^0",
        "300000000^0",
        "429496729^7",
        "1844674407^3709551617",
        "^X",
    ] {
        if bad != "^X" {
            stops(&format!("p2({bad})"));
            stops(&format!("$lesseq($sum({bad},1),1)"));
            stops(&format!("$lesseq($sum(1,1),{bad})"));
        }
        // These are numbers only, and no terms.
        stops(&format!("$lesseq($sum(1,{bad}),1)"));
        stops(&format!("![X0:$int]:((p1(X0,0)&X0!={bad})=>$true)"));
    }
}

#[test]
fn predicates_and_variables() {
    // They may be any numbers; the words are asked then.
    let six = "X2147483647,X0,X9,X10,1,-1";
    text_refused(text(&format!("p2147483647({six})")), 5, 0);
    text_refused(text("p3(1)"), 5, 0);
    text_refused(text("p2(X0)"), 6, 0);
    text_refused(text("p2(X2147483647)"), 6, 0);
    for bad in [
        "p^(1)",
        "p^-1(1)",
        "p^ 0(1)",
        "p0^0(1)",
        "p0^1(1)",
        "p214748364^8(1)",
        "p0^",
        "p0^[1]",
        "p0(^)",
        "p0(1^;2)",
        "p0(1,^)",
        "p0(1,2,3,4,5,6^,7)",
        "p0(1^(2))",
        "p0(^p0(1))",
        "p0(^$sum(1,2))",
        "p0(^x0)",
        "p0(X^)",
        "p0(X^-1)",
        "p0(X^ 0)",
        "p0(X0^0)",
        "p0(X214748364^8)",
        "p0(X^X0)",
        "^P0(1)",
        "^q0(1)",
        "^X0",
        "^1",
    ] {
        stops(bad);
    }
}

#[test]
fn plain_nodes_and_comparisons() {
    for bad in [
        "$^",
        "$t^",
        "$tru^",
        "$true^e",
        "$fals^",
        "$^True",
        "^true",
        "$^int",
        "$l^",
        "$less^(1,2)",
        "$lesseq^",
        "$lesseq(^1,2)",
        "$lesseq(^X0,2)",
        "$lesseq($^difference(1,2),3)",
        "$lesseq($sum^[1,2],3)",
        "$lesseq($sum(1^),3)",
        "$lesseq($sum(1,2^,3),4)",
        "$lesseq($sum(1,^X0),3)",
        "$lesseq($sum(1,2)^)",
        "$lesseq($sum(1,2),3^,4)",
        "$lesseq($sum(1,2),^$sum(1,2))",
        "$^greatereq($sum(1,2),3)",
    ] {
        stops(bad);
    }
    // A negation stands before an atom or a comparison.
    for bad in [
        "~^",
        "~$^true",
        "~$^false",
        "~^~p2(1)",
        "~^(p2(1)&p2(2))",
        "~^![X0:$int]:(p1(X0,1)=>$true)",
        "~^?[X0:$int]:(p1(X0,1)&$true)",
        "p2(1)^~p2(2)",
    ] {
        stops(bad);
    }
    is("~p2(1)|~p2(2)", &[7, 2, 3, 2, 1, 0, 1, 3, 2, 1, 0, 2]);
}

#[test]
fn joins() {
    for bad in [
        // One connective in each.
        "p2(1)&p2(2)^|p2(3)",
        "p2(1)|p2(2)|p2(3)^&p2(3)",
        "$true&($true|$true^&$true)",
        "$true^=>$true",
        "$true^<=>$true",
        "$true&^&$true",
        "$true&^",
        "^&$true",
        "$true&^)",
        // Parentheses around them, inside another one only.
        "(p2(1)&p2(2))^",
        "((p2(1)&p2(2))^)",
        "$true&($true^)",
        "($true^)",
        "$true&(($true|$false)^)",
        "$true&(($true|$false)^)&$true",
        "(p2(1)^)&$true",
        "$true&(^)",
        "^)",
        "![X0:$int]:(p1(X0,1)=>($true^))",
        "![X0:$int]:(p1(X0,1)=>$true^&$true)",
        "![X0:$int]:(p1(X0,1)=>(($true&$true)^))",
        "![X0:$int]:((p1(X0,1)^)=>$true)",
        "![X0:$int]:(p1(X0,1)^&$true=>$true)",
        "![X0:$int]:(((p1(X0,1)&$true)^)=>$true)",
        "(![X0:$int]:(p1(X0,1)=>$true)^)",
        "![X0:$int]:(?[X1:$int]:((p1(X0,X1)&$true)^)=>$true)",
        "![X0:$int]:(?[X1:$int]:((p1(X0,X1)^))=>$true)",
    ] {
        stops(bad);
    }
}

#[test]
fn quantifiers() {
    for bad in [
        "!^X0:$int]:(p1(X0,1)=>$true)",
        "![^]:(p1(X0,1)=>$true)",
        "![X^1:$int]:(p1(X1,1)=>$true)",
        "![X0:$i^]:(p1(X0,1)=>$true)",
        "![X0:$in^]:(p1(X0,1)=>$true)",
        "![X0:$int^eger]:(p1(X0,1)=>$true)",
        "![X0^,X1:$int]:(p1(X0,1)=>$true)",
        "![X0^]:(p1(X0,1)=>$true)",
        "![X0:$int,^]:(p1(X0,1)=>$true)",
        "![X0:$int,X^0:$int]:(p1(X0,1)=>$true)",
        "![X0:$int,X^2:$int]:(p1(X0,1)=>$true)",
        "![X0:$int,X1^0:$int]:(p1(X0,1)=>$true)",
        "![X0:$int,X1:$int,X2:$int,X3:$int^,X4:$int]:(p1(X0,1)=>$true)",
        "![X0:$int]^(p1(X0,1)=>$true)",
        "![X0:$int]:^p1(X0,1)=>$true",
        "![X0:$int]:(^)",
        "![X0:$int]:(p1(X0,1)^)",
        "![X0:$int]:(p1(X0,1)^|$true)",
        "![X0:$int]:(p1(X0,1)=^",
        "![X0:$int]:(p1(X0,1)=^ >$true)",
        "![X0:$int]:(p1(X0,1)=>^)",
        "![X0:$int]:(p1(X0,1)=>$true^=>$true)",
        "?[X0:$int]:(p1(X0,1)^)",
        "?[X0:$int]:(p1(X0,1)^=>$true)",
        "?[X0:$int]:(p1(X0,1)&$true^&$true)",
        // A binder in the body takes the next ones.
        "![X0:$int]:(p1(X0,1)=>![X^0:$int]:(p1(X0,1)=>$true))",
        "![X0:$int]:(p1(X0,1)=>![X^2:$int]:(p1(X2,1)=>$true))",
        // Behind a quantifier they are free again.
        "![X0:$int]:(p1(X0,1)=>$true)&![X^1:$int]:(p1(X1,1)=>$true)",
        // In a restriction: no quantifier, but "some", of one variable and with no body.
        "![X0:$int]:(^![X1:$int]:(p1(X0,X1)=>$true)=>$true)",
        "![X0:$int]:(?[X1:$int^,X2:$int]:($true)=>$true)",
        "![X0:$int]:(?[X^0:$int]:($true)=>$true)",
        "![X0:$int]:(?[X1:$int]:(p1(X0,X1)&$true&^)=>$true)",
        "![X0:$int]:(?[X1:$int]:(p1(X0,X1)^=>$true)=>$true)",
        "![X0:$int]:(?[X1:$int]:(^)=>$true)",
        "![X0:$int]:(p1(X0,1)=>?[X1:$int]:(p1(X0,X1)^))",
    ] {
        stops(bad);
    }
    // Seventeen variables are spelled well; the words are asked then.
    let four = |from: i32| {
        (from..from + 4)
            .map(|x| format!("X{x}:$int"))
            .collect::<Vec<_>>()
            .join(",")
    };
    let bound = |from: i32| format!("(p1(X{},X{})&p1(X{},X{}))", from, from + 1, from + 2, from + 3);
    let quantifier = |from: i32| format!("![{}]:({}=>", four(from), bound(from));
    let sixteen = [0, 4, 8, 12].map(quantifier).concat();
    is(
        &(sixteen.clone() + "p1(X0,X15)))))"),
        &[
            8, 4, 0, 6, 2, 2, 1, 2, 1, 0, 1, 1, 2, 1, 2, 1, 2, 1, 3, 8, 4, 0, 6, 2, 2, 1, 2, 1, 4, 1, 5, 2, 1, 2, 1, 6,
            1, 7, 8, 4, 0, 6, 2, 2, 1, 2, 1, 8, 1, 9, 2, 1, 2, 1, 10, 1, 11, 8, 4, 0, 6, 2, 2, 1, 2, 1, 12, 1, 13, 2,
            1, 2, 1, 14, 1, 15, 2, 1, 2, 1, 0, 1, 15,
        ],
    );
    text_refused(text(&(sixteen.clone() + "![X16:$int]:(p1(X16,1)=>$true)))))")), 6, 76);
    stops(&(sixteen + "![X1^7:$int]:(p1(X17,1)=>$true)))))"));
}

#[test]
fn exclusions() {
    for bad in [
        // Of one variable without parentheses, of more in them, all variables in order.
        "![X0:$int]:((p1(X0,1)&(^X0!=7))=>$true)",
        "![X0:$int]:((p1(X0,1)&X^1!=7)=>$true)",
        "![X0:$int]:((p1(X0,1)&X0^=7)=>$true)",
        "![X0:$int]:((p1(X0,1)&X0!^ =7)=>$true)",
        "![X0:$int]:((p1(X0,1)&X0!=^X0)=>$true)",
        "![X0:$int]:((p1(X0,1)&X0!=7^|X0!=8)=>$true)",
        "![X0:$int,X1:$int]:((p1(X0,X1)&^X0!=7)=>$true)",
        "![X0:$int,X1:$int]:((p1(X0,X1)&(X^1!=7|X0!=9))=>$true)",
        "![X0:$int,X1:$int]:((p1(X0,X1)&(X0!=7^))=>$true)",
        "![X0:$int,X1:$int]:((p1(X0,X1)&(X0!=7^&X1!=9))=>$true)",
        "![X0:$int,X1:$int]:((p1(X0,X1)&(X0!=7|X^0!=9))=>$true)",
        "![X0:$int,X1:$int]:((p1(X0,X1)&(X0!=7|^$true))=>$true)",
        "![X0:$int,X1:$int]:((p1(X0,X1)&(X0!=7|X1!=9^|X2!=9))=>$true)",
        "![X0:$int,X1:$int]:((p1(X0,X1)&((^X0!=7|X1!=9)))=>$true)",
        "![X0:$int]:(p1(X0,1)=>![X1:$int]:((p1(X1,1)&X^0!=7)=>$true))",
        "![X0:$int]:(p1(X0,1)=>![X1:$int,X2:$int]:((p1(X1,X2)&(X^0!=7|X1!=7))=>$true))",
        // Behind one restriction, and nothing else behind them.
        "![X0:$int]:((p1(X0,1)&$true&^X0!=7)=>$true)",
        "![X0:$int]:((p1(X0,1)|^X0!=7)=>$true)",
        "![X0:$int]:((p1(X0,1)|$true^&X0!=7)=>$true)",
        "![X0:$int]:((p1(X0,1)&X0!=7&^$true)=>$true)",
        "![X0:$int]:((p1(X0,1)&X0!=7^|$true)=>$true)",
        "![X0:$int,X1:$int]:((p1(X0,X1)&(X0!=7|X1!=9)&^X0!=7)=>$true)",
        "![X0:$int,X1:$int]:((p1(X0,X1)&(X0!=7|X1!=9)&(^$true|$true))=>$true)",
        "![X0:$int]:((^X0!=7&p1(X0,1))=>$true)",
        "![X0:$int]:((^X0!=7)=>$true)",
        "![X0:$int]:(^X0!=7=>$true)",
        "![X0:$int]:(p1(X0,1)^&X0!=7=>$true)",
        "![X0:$int]:(((p1(X0,1)&^X0!=7))=>$true)",
        "![X0:$int]:((p1(X0,1)&X0!=7^=>$true)",
        // Nowhere else.
        "^X0!=7",
        "$true&^X0!=7",
        "![X0:$int]:(p1(X0,1)=>^X0!=7)",
        "![X0:$int]:(p1(X0,1)=>(p1(X0,1)&^X0!=7))",
        "?[X0:$int]:(p1(X0,1)&^X0!=7)",
        "![X0:$int]:((p1(X0,1)&(p1(X0,1)&^X0!=7))=>$true)",
        "![X0:$int]:(?[X1:$int]:(p1(X0,X1)&^X1!=7)=>$true)",
        "![X0:$int]:((?[X1:$int]:(p1(X0,X1)&^X1!=7)&X0!=7)=>$true)",
    ] {
        stops(bad);
    }
    // An operand in parentheses where a tuple could stand.
    is(
        "![X0:$int,X1:$int]:((p1(X0,X1)&($true|$false))=>$true)",
        &[8, 2, 0, 6, 2, 2, 1, 2, 1, 0, 1, 1, 7, 2, 1, 0, 1],
    );
}

#[test]
fn parentheses_open_at_once() {
    let mut levels = 0;
    for deep in deep_policy_texts(256) {
        // So deep a text has too many levels, or too many variables; the words are asked then.
        let answer = read(&deep.text, 0).0;
        assert!(matches!(answer.number, 4..=7), "{}: {answer:?}", deep.name);
        levels += usize::from(answer.number == 4 && answer.place < deep.innermost);
        // What is wrong behind is found first.
        let text = &deep.text[..deep.text.len() - 1];
        text_refused(text, 15, text.len());
    }
    assert!(levels > 20);
    for deep in deep_policy_texts(257) {
        text_refused(&deep.text, 4, deep.innermost);
        // Nothing behind it is read.
        let front = &deep.text[..=deep.innermost];
        text_refused(front, 4, deep.innermost);
        text_refused([front, b"%"].concat(), 4, deep.innermost);
        // Without it there is one less; with another byte that one is wrong.
        text_refused(&front[..deep.innermost], 15, deep.innermost);
        text_refused([&front[..deep.innermost], b"%"].concat(), 15, deep.innermost);
        // Something wrong before it is found first.
        text_refused([b"tff(a,axiom,%", &deep.text[12..]].concat(), 15, 12);
    }
    // Closed ones do not count.
    let many = vec!["p2(1)"; 1_000].join("&");
    let words = [vec![6, 1_000], [2, 2, 1, 0, 1].repeat(1_000)].concat();
    gives(text(&many), &words);
}

#[test]
fn questions_2_to_7_of_the_words() {
    text_refused(text("p9(1)"), 5, 0);
    text_refused(text("$true&p2(1,2)"), 5, 3);
    text_refused(text("p2(X0)"), 6, 0);
    text_refused(text("![X0:$int]:(p2(X0)=>$true)"), 7, 3);
    text_refused(text("![X0:$int]:($true=>$true)"), 7, 0);
    text_refused(text("![X0:$int]:((p2(X0)&X0!=7)=>$true)"), 7, 4);
    // 15 of the whole text comes first; then the first node, not the first question.
    text_refused(text("p9(1)&"), 15, 18);
    text_refused(text("p2(X0)&p9(1)"), 6, 2);
    text_refused(text("![X0:$int]:(p2(X0)=>p9(1))"), 5, 8);
    // Levels.
    let deep = |count: usize| {
        let front = "$true&(".repeat(count - 1);
        text(&(front + "$true&$true" + &")".repeat(count - 1)))
    };
    gives(deep(63), &[[6, 2, 1].repeat(63), vec![1]].concat());
    text_refused(deep(64), 4, 191);
    // Too many words, whatever they are.
    let wide = |count: usize, child: &str| text(&vec![child; count].join("|"));
    let mut words = vec![1; 1_048_576];
    words[..2].copy_from_slice(&[7, 1_048_574]);
    gives(wide(1_048_574, "$true"), &words);
    text_refused(wide(1_048_575, "$true"), 2, 0);
    text_refused(wide(209_715, "p9(1)"), 2, 0);
    text_refused(wide(209_714, "p9(1)"), 5, 2);
}

#[test]
fn a_policy_that_is_not_written() {
    for room in [0, 30] {
        for (bad, number, place) in [
            (&[][..], 2, 0),
            (&[1, 1], 3, 1),
            (&[[6, 2, 1].repeat(64), vec![1]].concat(), 4, 191),
            (&[2, 9, 1, 0, 1], 5, 0),
            (&[2, 2, 1, 1, 0], 6, 0),
            (&[8, 1, 0, 1, 1], 7, 0),
        ] {
            assert_eq!(written(bad, room), (Answer::refused(number, place), vec![0; room]));
        }
    }
}

#[test]
fn question_1_comes_first() {
    for text in ["", "%", "tff(a,axiom,$true)."] {
        let mut buffer = [7; 9];
        let answer = read_policy(&[1, 0, 0, 7, 0, 0], text.as_bytes(), &mut buffer);
        assert_eq!((answer, buffer), (Answer::refused(1, 1), [0; 9]));
    }
    let mut buffer = [7; 9];
    assert_eq!(write_policy(&T[1..], &F, &mut buffer), Answer::refused(1, 0));
    assert_eq!(buffer, [0; 9]);
}

/// A policy that is written and read again is the same policy, however its text is spelled.
#[test]
fn written_and_read_again() {
    let random = &mut Random::new(0xF201);
    let mut deep = 0;
    for _ in 0..4_000 {
        let table = good_table(random);
        let recipe = Recipe::good(random);
        let policy = policy(random, &table, &recipe);
        deep += usize::from(check_policy(&table, &policy).count > 60);
        let text = text_of_policy(&table, &policy).unwrap();
        assert_eq!(text, spelled_policy(random, &policy, PolicySpelling::PLAIN));
        assert_eq!(policy_of_text(&table, &text), Ok(policy.clone()));
        assert!(text.len() <= 18 * policy.len() + 14 && policy.len() <= text.len());
        let spelling = PolicySpelling::any(random);
        let other = spelled_policy(random, &policy, spelling);
        assert_eq!(policy_of_text(&table, &other), Ok(policy), "{}", other.escape_ascii());
    }
    assert!(deep > 500);
}
