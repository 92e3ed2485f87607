//! Policies in the TPTP typed form: every word and byte of the buffers, and every refusal.

use inputs::deep_policy_texts;
use vitrinehawk::{check_policy, declarations, read_policy, write_policy, Refusal, Refused};

/// send (open), consent (complete), believes (its argument is an input, open).
const T: [i32; 9] = [3, 0, 0, 2, 0, 1, 1, 1, 0];

const F: [i32; 17] = [8, 3, 0, 2, 0, 3, 1, 0, 1, 1, 1, 2, 2, 2, 1, 1, 1];

const F_TEXT: &str = "tff(a,axiom,![X0:$int,X1:$int,X2:$int]:(p0(X0,X1,X2)=>p2(X1))).";

type Outcome = Result<usize, Refused>;

fn refusal(refusal: Refusal, place: usize) -> Outcome {
    Err(Refused { refusal, place })
}

/// A formula as the text of a policy.
fn text(formula: &str) -> String {
    format!("tff(a,axiom,{formula}).")
}

/// Reads with a buffer of so many words, full of other words at first.
fn read(text: &[u8], room: usize) -> (Outcome, Vec<i32>) {
    let mut buffer = vec![-5; room];
    let outcome = read_policy(&T, text, &mut buffer);
    (outcome, buffer)
}

/// Writes with a buffer of so many bytes, full of other bytes at first.
fn written(policy: &[i32], room: usize) -> (Outcome, Vec<u8>) {
    let mut buffer = vec![b'x'; room];
    let outcome = write_policy(&T, policy, &mut buffer);
    (outcome, buffer)
}

/// Checks that a text has these words: with a buffer that just fits, with more and with less.
#[track_caller]
fn gives(text: impl AsRef<[u8]>, policy: &[i32]) {
    let (text, words) = (text.as_ref(), policy.len());
    assert_eq!(read(text, words), (Ok(words), policy.to_vec()));
    assert_eq!(read(text, words + 3), (Ok(words), [policy, &[0; 3]].concat()));
    for less in 0..words {
        assert_eq!(read(text, less), (refusal(Refusal::Room, 0), vec![0; less]));
    }
}

/// Checks that a formula has these words, and that they are written so.
#[track_caller]
fn is(formula: &str, policy: &[i32]) {
    let text = text(formula).into_bytes();
    let bytes = text.len();
    gives(&text, policy);
    assert_eq!(written(policy, bytes), (Ok(bytes), text.clone()));
    assert_eq!(written(policy, bytes + 2), (Ok(bytes), [&text[..], &[0, 0]].concat()));
    for less in 0..bytes {
        assert_eq!(written(policy, less), (refusal(Refusal::Room, 0), vec![0; less]));
    }
}

/// Checks that a text is refused, whatever the buffer, and leaves zeros.
#[track_caller]
fn is_refused(text: impl AsRef<[u8]>, number: Refusal, place: usize) {
    let text = text.as_ref();
    for room in [40, 8, 1, 0] {
        let outcome = (refusal(number, place), vec![0; room]);
        assert_eq!(read(text, room), outcome, "{}", text.escape_ascii());
    }
}

#[test]
fn formulas() {
    is("![X0:$int,X1:$int,X2:$int]:(p0(X0,X1,X2)=>p2(X1))", &F);
    is("$false", &[0]);
    is("$true", &[1]);
    is("p1(-1,2147483647)", &[2, 1, 2, 0, -1, 0, i32::MAX]);
    is("~p2(0)", &[3, 2, 1, 0, 0]);
    is("$lesseq($sum(1,-2147483648),2)", &[4, i32::MIN, 0, 1, 0, 2]);
    is("~$lesseq($sum(1,2),3)", &[5, 2, 0, 1, 0, 3]);
    is("($true|$false)&$true", &[6, 2, 7, 2, 1, 0, 1]);
    is("$true|p2(1)|($true&$false)", &[7, 3, 1, 2, 2, 1, 0, 1, 6, 2, 1, 0]);
    is(
        "?[X0:$int]:(?[X1:$int]:(p1(X0,X1)&$true)&$true)",
        &[9, 1, 0, 10, 6, 2, 2, 1, 2, 1, 0, 1, 1, 1, 1],
    );
    is(
        "![X0:$int]:((p1(X0,1)|p1(1,X0))=>($true&$false))",
        &[8, 1, 0, 7, 2, 2, 1, 2, 1, 0, 0, 1, 2, 1, 2, 0, 1, 1, 0, 6, 2, 1, 0],
    );
}

#[test]
fn excluded_tuples() {
    // What log A leaves of F.
    is(
        "p2(9)&![X0:$int,X1:$int,X2:$int]:((p0(X0,X1,X2)&(X0!=7|X1!=9|X2!=100))=>p2(X1))",
        &[
            6, 2, 2, 2, 1, 0, 9, 8, 3, 1, 7, 9, 100, 2, 0, 3, 1, 0, 1, 1, 1, 2, 2, 2, 1, 1, 1,
        ],
    );
    is(
        "?[X0:$int]:((p1(X0,1)&X0!=7&X0!=-8)&$true)",
        &[9, 1, 2, 7, -8, 2, 1, 2, 1, 0, 0, 1, 1],
    );
    is(
        "![X0:$int]:(((p1(X0,1)&$true)&X0!=7)=>($true|$false))",
        &[8, 1, 1, 7, 6, 2, 2, 1, 2, 1, 0, 0, 1, 1, 7, 2, 1, 0],
    );
    is(
        "![X0:$int]:(p1(X0,0)=>![X1:$int,X2:$int]:((p1(X1,X2)&(X1!=1|X2!=2)&(X1!=3|X2!=4))=>$true))",
        &[
            8, 1, 0, 2, 1, 2, 1, 0, 0, 0, 8, 2, 2, 1, 2, 3, 4, 2, 1, 2, 1, 1, 1, 2, 1,
        ],
    );
}

#[test]
fn names_and_blanks() {
    gives(" tff\r\n( aB_9 , axiom , ~ p2 ( 0 ) ) . \n", &[3, 2, 1, 0, 0]);
    gives(
        "tff(tff,axiom,! [X0:$int ,\nX1 : $int,X2: $int] :(p0(X0, X1,X2)\n=> p2( X1)) )\r.",
        &F,
    );
    for blank in ["\t", "\x0b", "\x0c", "\0", "\u{a0}", "%", "/**/"] {
        is_refused(format!("{blank}{F_TEXT}"), Refusal::Tptp, 0);
        is_refused(format!("{F_TEXT}{blank}"), Refusal::Tptp, F_TEXT.len());
    }
    for bad in ["A", "_a", "1", "'a'", "$a"] {
        is_refused(format!("tff({bad},axiom,$true)."), Refusal::Tptp, 4);
    }
    // Tokens are not taken apart.
    is_refused("t ff(a,axiom,$true).", Refusal::Tptp, 1);
    is_refused(text("p 2(1)"), Refusal::Tptp, 13);
    is_refused(text("p2(- 1)"), Refusal::Tptp, 16);
    is_refused(text("p2(1 1)"), Refusal::Tptp, 17);
    is_refused(text("$ true"), Refusal::Tptp, 13);
    is_refused(text("![X0:$int]:(p1(X0,1)= >$true)"), Refusal::Tptp, 33);
    is_refused(text("![X0:$int]:((p1(X0,1)&X0! =7)=>$true)"), Refusal::Tptp, 37);
}

#[test]
fn texts_that_spell_no_policy() {
    is_refused("", Refusal::Tptp, 0);
    is_refused(text("$true") + "%", Refusal::Tptp, 19);
    is_refused("tff(a,axiom,$true)", Refusal::Tptp, 18);
    // Connectives mixed; a negation before no atom; numbers that are none.
    is_refused(text("p2(1)&p2(2)|p2(3)"), Refusal::Tptp, 23);
    is_refused(text("~$true"), Refusal::Tptp, 14);
    is_refused(text("~~p2(1)"), Refusal::Tptp, 13);
    is_refused(text("p2(01)"), Refusal::Tptp, 16);
    is_refused(text("p2(-0)"), Refusal::Tptp, 16);
    is_refused(text("p2(+1)"), Refusal::Tptp, 15);
    is_refused(text("p2(2147483648)"), Refusal::Tptp, 24);
    is_refused(text("p2(-2147483649)"), Refusal::Tptp, 25);
    is_refused(text("p2147483648(1)"), Refusal::Tptp, 22);
    is_refused(text("p2(X2147483648)"), Refusal::Tptp, 25);
    // A binder's variable that is not the next free one; no body; a quantifier in a restriction.
    is_refused(text("![X1:$int]:(p2(X1)=>$true)"), Refusal::Tptp, 15);
    is_refused(text("![X0:$int,X0:$int]:(p2(X1)=>$true)"), Refusal::Tptp, 23);
    is_refused(text("?[X0:$int]:(p1(X0,1))"), Refusal::Tptp, 32);
    is_refused(text("![X0:$int]:(![X1:$int]:($true=>$true)=>$true)"), Refusal::Tptp, 24);
    is_refused(text("![X0:$int]:(p1(X0,1)&$true)"), Refusal::Tptp, 32);
    is_refused(text("?[X0:$int]:(p1(X0,1)=>$true)"), Refusal::Tptp, 32);
    // Parentheses around a whole formula or one operand, and none around an operand.
    is_refused(text("(p2(1)&p2(2))"), Refusal::Tptp, 25);
    is_refused(text("$true&($true)"), Refusal::Tptp, 24);
    is_refused(
        text("![X0:$int]:(?[X1:$int]:((p1(X0,X1)&$true))=>$true)"),
        Refusal::Tptp,
        53,
    );
    is_refused(text("![X0:$int]:(p1(X0,1)&$true=>$true)"), Refusal::Tptp, 32);
    is_refused(text("![X0:$int]:(p1(X0,1)=>$true|$true)"), Refusal::Tptp, 39);
    // A fifth variable, a seventh term, a second variable of a "some".
    is_refused(
        text("![X0:$int,X1:$int,X2:$int,X3:$int,X4:$int]:($true=>$true)"),
        Refusal::Tptp,
        45,
    );
    is_refused(text("p0(1,2,3,4,5,6,7)"), Refusal::Tptp, 26);
    is_refused(
        text("![X0:$int]:(?[X1:$int,X2:$int]:($true)=>$true)"),
        Refusal::Tptp,
        33,
    );
    // Exclusions out of order, behind two operands, in parentheses of one variable, and in a formula.
    is_refused(
        text("![X0:$int,X1:$int]:((p1(X0,X1)&(X1!=7|X0!=9))=>$true)"),
        Refusal::Tptp,
        45,
    );
    is_refused(text("![X0:$int]:((p1(X0,1)&$true&X0!=7)=>$true)"), Refusal::Tptp, 40);
    is_refused(text("![X0:$int]:((p1(X0,1)|$true&X0!=7)=>$true)"), Refusal::Tptp, 39);
    is_refused(text("![X0:$int]:((p1(X0,1)&(X0!=7))=>$true)"), Refusal::Tptp, 35);
    is_refused(text("![X0:$int]:((p1(X0,1)&X0!=7&$true)=>$true)"), Refusal::Tptp, 40);
    is_refused(text("$true&X0!=7"), Refusal::Tptp, 18);
}

/// Questions 2 to 7 are asked of the words, behind 15 and before 12.
#[test]
fn policies_that_are_refused() {
    is_refused(text("p9(1)"), Refusal::Predicate, 0);
    is_refused(text("$true&p2(1,2)"), Refusal::Predicate, 3);
    is_refused(text("p2(X0)"), Refusal::Variable, 0);
    is_refused(text("p2(X2147483647)"), Refusal::Variable, 0);
    is_refused(text("![X0:$int]:(p2(X0)=>$true)"), Refusal::Mode, 3);
    is_refused(text("![X0:$int]:((p2(X0)&X0!=7)=>$true)"), Refusal::Mode, 4);
    is_refused(text("![X0:$int]:($true=>$true)"), Refusal::Mode, 0);
    is_refused(text("p9(1)&"), Refusal::Tptp, 18);
    is_refused(text("![X0:$int]:(p2(X0)=>p9(1))"), Refusal::Predicate, 8);
    // Four times four variables, and a seventeenth.
    let binders = (0..4).map(|number| {
        let [a, b, c, d] = [0, 1, 2, 3].map(|place| 4 * number + place);
        format!("![X{a}:$int,X{b}:$int,X{c}:$int,X{d}:$int]:((p1(X{a},X{b})&p1(X{c},X{d}))=>")
    });
    let sixteen: String = binders.collect();
    is_refused(
        text(&format!("{sixteen}![X16:$int]:(p1(X16,1)=>$true)))))")),
        Refusal::Variable,
        76,
    );
    is_refused(text(&format!("{sixteen}p1(X15,X16)))))")), Refusal::Variable, 76);
    let (outcome, words) = read(text(&format!("{sixteen}p1(X0,X15)))))")).as_bytes(), 83);
    assert_eq!((outcome, &words[76..]), (Ok(83), &[2, 1, 2, 1, 0, 1, 15][..]));
}

/// So many all-ofs, one in the other.
fn nested(all_ofs: usize) -> String {
    text(&format!(
        "{}$true&$true{}",
        "$true&(".repeat(all_ofs - 1),
        ")".repeat(all_ofs - 1)
    ))
}

#[test]
fn sixty_four_levels() {
    gives(nested(63), &[[6, 2, 1].repeat(63), vec![1]].concat());
    is_refused(nested(64), Refusal::Level, 191);
    is_refused(nested(255), Refusal::Level, 191);
}

/// A quantifier costs one level under its own kind of join and else two, whether the connective stands before it or
/// behind it.
#[test]
fn levels_of_a_first_operand() {
    let quantifiers = [
        ("![X0:$int]:(p1(X0,1)=>$true)", '&'),
        ("?[X0:$int]:(p1(X0,1)&$true)", '|'),
    ];
    for (quantifier, own) in quantifiers {
        for connective in ['&', '|'] {
            for chain in [
                format!("{quantifier}{connective}$true"),
                format!("$true{connective}{quantifier}"),
                format!("{quantifier}{connective}{quantifier}{connective}$true"),
            ] {
                let cost = if connective == own { 1 } else { 2 };
                // The joins around it, its own one, the quantifier, and its restriction.
                let deepest = |joins: usize| joins + 1 + cost + 1;
                for joins in 58..=63 {
                    let text = text(&format!("{}{chain}{}", "$true|(".repeat(joins), ")".repeat(joins)));
                    let mut words = vec![-5; 300];
                    let outcome = read_policy(&T, text.as_bytes(), &mut words);
                    if deepest(joins) <= 64 {
                        words.truncate(outcome.expect("it is within the levels"));
                        assert_eq!(check_policy(&T, &words), Ok(deepest(joins)));
                    } else {
                        assert_eq!(outcome.unwrap_err().refusal, Refusal::Level);
                        assert!(words.iter().all(|word| *word == 0));
                    }
                }
            }
        }
    }
    // Places: the restriction is one level below, the quantifier two.
    let chain = |joins: usize, connective: char| {
        let quantifier = quantifiers[0].0;
        text(&format!(
            "{}{quantifier}{connective}$true{}",
            "$true|(".repeat(joins),
            ")".repeat(joins)
        ))
    };
    is_refused(chain(62, '&'), Refusal::Level, 3 * 62 + 2 + 3);
    is_refused(chain(61, '|'), Refusal::Level, 3 * 61 + 2 + 3);
    is_refused(chain(62, '|'), Refusal::Level, 3 * 62 + 2);
    is_refused(chain(63, '&'), Refusal::Level, 3 * 63 + 2);
}

/// Every parenthesis counts, and nothing behind the 257th is read.
#[test]
fn parentheses_open_at_once() {
    is_refused(nested(256), Refusal::Level, 191);
    is_refused(nested(257), Refusal::Level, 1803);
    is_refused(&nested(257)[..1804], Refusal::Level, 1803);
    is_refused(nested(257)[..1804].to_owned() + "%", Refusal::Level, 1803);
    is_refused(&nested(257)[..1803], Refusal::Tptp, 1803);
    is_refused(nested(257)[..1803].to_owned() + "%", Refusal::Tptp, 1803);
    is_refused("tff(a,axiom,%".to_owned() + &nested(257)[12..], Refusal::Tptp, 12);
    for deep in deep_policy_texts(257) {
        is_refused(&deep.text, Refusal::Level, deep.innermost);
        is_refused(&deep.text[..=deep.innermost], Refusal::Level, deep.innermost);
        is_refused(&deep.text[..deep.innermost], Refusal::Tptp, deep.innermost);
    }
    for open in [255, 256] {
        for deep in deep_policy_texts(open) {
            // The words are asked, and have too many levels or variables.
            let refused = read(&deep.text, 0).0.unwrap_err();
            let of_words = [Refusal::Level, Refusal::Predicate, Refusal::Variable];
            assert!(of_words.contains(&refused.refusal), "{}: {refused}", deep.name);
            is_refused(&deep.text[..deep.text.len() - 1], Refusal::Tptp, deep.text.len() - 1);
        }
    }
}

/// The parenthesis that is one too many, at its byte and whatever follows; and one where none may stand.
#[test]
fn one_parenthesis_too_many() {
    let inner = |times: usize, part: &str| format!("tff(a,axiom,{}{part}", "$true&(".repeat(times));
    for (times, part, place) in [
        (256, "%", 1803),
        (255, "p2(%", 1799),
        (255, "~p2(%", 1800),
        (255, "$lesseq(%", 1804),
        (254, "$lesseq($sum(%", 1802),
        (255, "![X0:$int]:(%", 1808),
        (254, "![X0:$int]:(?[X1:$int]:(%", 1813),
        (254, "![X0:$int]:((%", 1802),
        (253, "![X0:$int,X1:$int]:(($true&(X0!=7|X1!=9))=>$true)", 1810),
        (253, "![X0:$int,X1:$int]:(($true&(%", 1810),
    ] {
        is_refused(inner(times, part), Refusal::Level, place);
    }
    is_refused(inner(255, "$true("), Refusal::Tptp, 1802);
    is_refused(inner(255, "~("), Refusal::Tptp, 1798);
}

#[test]
fn blanks_inside_tokens() {
    for (formula, place) in [
        ("![X0:$int]:($true= >$true)", 30),
        ("![X0:$int]:(($true&X0! =7)=>$true)", 34),
        ("![X0:$ int]:($true=>$true)", 18),
        ("![X 0:$int]:($true=>$true)", 15),
        ("p 2(1)", 13),
        ("p2(X 0)", 16),
        ("p1 0(1)", 15),
        ("p2(X1 0)", 18),
    ] {
        is_refused(text(formula), Refusal::Tptp, place);
    }
}

#[test]
fn policies_that_are_not_written() {
    let too_deep = [[6, 2, 1].repeat(64), vec![1]].concat();
    for room in [0, 40] {
        for (policy, number, place) in [
            (&[][..], Refusal::PolicyLength, 0),
            (&[1, 1], Refusal::Shape, 1),
            (&too_deep, Refusal::Level, 191),
            (&[2, 9, 1, 0, 1], Refusal::Predicate, 0),
            (&[2, 2, 1, 1, 0], Refusal::Variable, 0),
            (&[8, 1, 0, 1, 1], Refusal::Mode, 0),
        ] {
            assert_eq!(written(policy, room), (refusal(number, place), vec![0; room]));
        }
    }
}

#[test]
fn a_bad_table() {
    for text in ["", F_TEXT, "%"] {
        let mut buffer = [7; 9];
        let outcome = read_policy(&T[..8], text.as_bytes(), &mut buffer);
        assert_eq!((outcome, buffer), (refusal(Refusal::Table, 0), [0; 9]));
    }
    let mut buffer = [7; 9];
    let outcome = write_policy(&[1, 0, 0, 7, 0, 0], &F, &mut buffer);
    assert_eq!((outcome, buffer), (refusal(Refusal::Table, 1), [0; 9]));
}

/// A reader of axioms does not take the declarations.
#[test]
fn declarations_stand_apart() {
    let lines = declarations(&T);
    assert_eq!(lines.lines().count(), 3);
    is_refused(lines + F_TEXT, Refusal::Tptp, 7);
}
