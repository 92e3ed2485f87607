//! Policies in the TPTP typed form: reading and writing.

use std::hint::black_box;

use inputs::{long_policy, spelled_policy, PolicySpelling, Random};
use reference::Answer;

use crate::logs::TABLE;
use crate::measure::{agreed, Call, Lent, Room, Times};
use crate::report::{row, row_with, IMPLEMENTATIONS};
use crate::words::{all_of, any_of, at_most, constant, fails, holds, variable};
use crate::{answer, library, peer};

/// The greatest number of words of a policy.
const MOST_WORDS: usize = 1_048_576;

/// The policies have at most so many, so that an operand can be added that is refused.
const WORDS: usize = MOST_WORDS - 76;

/// Blanks before one token in two.
const SPACED: PolicySpelling = PolicySpelling {
    blanks: Some(2),
    any_name: false,
};

/// A kind of policies, each an all-of of many parts.
struct Shape {
    name: &'static str,
    meaning: &'static str,
    /// A policy of at most so many words.
    make: fn(&mut Random, usize) -> Vec<i32>,
}

/// The kinds that are measured.
const SHAPES: [Shape; 5] = [
    Shape {
        name: "atoms",
        meaning: "ground atoms with one to six arguments below 100",
        make: |random, words| wide(words, || atom(random, |random| random.below(100) as i32)),
    },
    Shape {
        name: "long numbers",
        meaning: "the same with any words for arguments",
        make: |random, words| wide(words, || atom(random, |random| random.number() as i32)),
    },
    Shape {
        name: "tuples",
        meaning: "for-alls of one to four variables, each with 40 excluded tuples",
        make: |random, words| wide(words, || for_all(random)),
    },
    Shape {
        name: "nests",
        meaning: "nests of 64 levels: any-of and all-of in turns, each with the next join and two atoms",
        make: |random, words| wide(words, || nest(random, 62)),
    },
    Shape {
        name: "mixed",
        meaning: "random parts of all kinds",
        make: |random, words| long_policy(random, &TABLE, words),
    },
];

/// An all-of of as many parts as fit so many words.
fn wide(words: usize, mut part: impl FnMut() -> Vec<i32>) -> Vec<i32> {
    let mut parts = Vec::new();
    let mut length = 2;
    loop {
        let next = part();
        length += next.len();
        if length > words {
            return all_of(&parts);
        }
        parts.push(next);
    }
}

/// An atom holds or fails.
fn atom(random: &mut Random, argument: fn(&mut Random) -> i32) -> Vec<i32> {
    let predicate = random.below(TABLE.len() / 3);
    let arguments: Vec<_> = (0..TABLE[3 * predicate]).map(|_| constant(argument(random))).collect();
    let make = random.pick(&[holds, fails]);
    make(predicate as i32, &arguments)
}

/// For all tuples of one to four variables but forty: one of them is at most another number, or believes.
fn for_all(random: &mut Random) -> Vec<i32> {
    let variables = random.between(1, 4) as i32;
    let tuples = (0..40 * variables).map(|_| random.below(10_000) as i32 - 100);
    // The last predicate has four arguments.
    let terms = [0, 1, 2, 3].map(|number| variable(number.min(variables - 1)));
    let body = any_of(&[at_most(terms[0], -10, constant(77)), holds(2, &terms[3..])]);
    [vec![8, variables, 40], tuples.collect(), holds(4, &terms), body].concat()
}

/// So many joins, one in the other, each with the next one and two atoms; last an atom.
fn nest(random: &mut Random, joins: usize) -> Vec<i32> {
    let mut other = || atom(random, |random| random.below(1_000) as i32);
    let (first, second) = (other(), other());
    if joins == 0 {
        return first;
    }
    let children = [nest(random, joins - 1), first, second];
    if joins.is_multiple_of(2) {
        any_of(&children)
    } else {
        all_of(&children)
    }
}

/// A call on the text of a policy, with its times.
pub struct Measured {
    name: String,
    words: usize,
    bytes: usize,
    times: Vec<Times>,
}

/// Compares and measures reading and writing.
pub fn measure_all() -> Vec<Measured> {
    SHAPES.iter().flat_map(measure).collect()
}

/// Measures the calls on a policy of a shape. A buffer has just the words or bytes that are needed; or nothing.
fn measure(shape: &Shape) -> [Measured; 4] {
    let random = &mut Random::new(0x7F7F);
    let policy = (shape.make)(random, WORDS);
    let [plain, spaced] = [PolicySpelling::PLAIN, SPACED].map(|spelling| spelled_policy(random, &policy, spelling));
    let words = Room {
        buffer: policy.len(),
        ..Lent::NOTHING
    };
    let bytes = Room {
        bytes: plain.len(),
        ..Lent::NOTHING
    };
    refuse(shape.name, &plain, &policy);

    let measured = |call: &str, text: &[u8], measure: &dyn Fn(&str) -> Vec<Times>| {
        let name = format!("{call}, {}", shape.name);
        Measured {
            times: measure(&name),
            name,
            words: policy.len(),
            bytes: text.len(),
        }
    };
    [
        measured("read policy", &plain, &|name| {
            with_reads(&plain, |calls| row(name, 1, words, calls))
        }),
        measured("spaced", &spaced, &|name| {
            with_reads(&spaced, |calls| row(name, 1, words, calls))
        }),
        measured("no room", &plain, &|name| {
            with_reads(&plain, |calls| row_with(12, name, 1, Lent::NOTHING, calls))
        }),
        measured("write policy", &plain, &|name| {
            with_writes(&policy, |calls| row(name, 1, bytes, calls))
        }),
    ]
}

/// Does something with the calls that read a text.
fn with_reads<T>(text: &[u8], work: impl FnOnce(&[Call]) -> T) -> T {
    let text = || black_box(text);
    work(&[
        &|_, lent| library(vitrinehawk::read_policy(&TABLE, text(), &mut lent.buffer)),
        &|_, lent| reference::read_policy(&TABLE, text(), &mut lent.buffer),
        &|_, lent| answer(peer::read_policy(&TABLE, text(), &mut lent.buffer)),
    ])
}

/// Does something with the calls that write a policy.
fn with_writes<T>(policy: &[i32], work: impl FnOnce(&[Call]) -> T) -> T {
    let policy = || black_box(policy);
    work(&[
        &|_, lent| library(vitrinehawk::write_policy(&TABLE, policy(), &mut lent.bytes)),
        &|_, lent| reference::write_policy(&TABLE, policy(), &mut lent.bytes),
        &|_, lent| answer(peer::write_policy(&TABLE, policy(), &mut lent.bytes)),
    ])
}

/// Compares the calls on variants of a plain text and of its policy that are refused.
fn refuse(name: &str, text: &[u8], policy: &[i32]) {
    let (bytes, words) = (text.len(), policy.len());
    let read = |text: &[u8], less: usize, expected: Answer| {
        let room = Room {
            buffer: words - less,
            ..Lent::NOTHING
        };
        let answer = with_reads(text, |calls| agreed(name, 0, room, calls));
        assert_eq!(answer, expected, "{name}: the answer to a bad text");
    };
    // One operand more at the end.
    let with = |operand: &str| [&text[..bytes - 2], b"&", operand.as_bytes(), b")."].concat();
    read(text, 1, Answer::refused(12, 0));
    read(&text[..bytes - 1], 0, Answer::refused(15, bytes - 1));
    read(&[text, b"%"].concat(), 0, Answer::refused(15, bytes));
    read(&with("$true|$true"), 0, Answer::refused(15, bytes + 4));
    read(&with("p99(1)"), 0, Answer::refused(5, words));
    read(&with("p2(X0)"), 0, Answer::refused(6, words));
    read(&with("![X0:$int]:(p2(X0)=>$true)"), 0, Answer::refused(7, words + 3));
    let too_many = vec!["$true"; MOST_WORDS + 1 - words].join("&");
    read(&with(&too_many), 0, Answer::refused(2, 0));
    let write = |policy: &[i32], less: usize, expected: Answer| {
        let room = Room {
            bytes: bytes - less,
            ..Lent::NOTHING
        };
        let answer = with_writes(policy, |calls| agreed(name, 0, room, calls));
        assert_eq!(answer, expected, "{name}: the answer to a bad policy");
    };
    write(policy, 1, Answer::refused(12, 0));
    write(&policy[1..], 0, Answer::refused(3, 0));
    write(&[policy, &[1]].concat(), 0, Answer::refused(3, words));
}

/// Prints the time for a word, and its bytes.
pub fn print(measured: &[Measured]) {
    println!("Policies as text. Nanoseconds for a word, medians; bytes of a word, on average.");
    println!();
    print!("{:<32}", "");
    for implementation in IMPLEMENTATIONS {
        print!(" {implementation:>12}");
    }
    println!(" {:>8} {:>8}", "words", "bytes");
    for Measured {
        name,
        words,
        bytes,
        times,
    } in measured
    {
        print!("{name:<32}");
        for times in times {
            print!(" {:>12.2}", times.median() * 1e9 / *words as f64);
        }
        println!(" {words:>8} {:>8.2}", *bytes as f64 / *words as f64);
    }
    println!();
    println!(
        "read policy: the text as it is written, into a buffer that just fits. spaced: the same with blanks before"
    );
    println!("one token in two. no room: the first text, into a buffer of 0 words; the answer is 12, after all other");
    println!("questions. write policy: into a buffer that just fits.");
    for Shape { name, meaning, .. } in SHAPES {
        println!("{name}: an all-of of {meaning}.");
    }
}
