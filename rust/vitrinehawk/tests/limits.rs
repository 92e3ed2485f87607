//! Fixed inputs: the greatest policies, logs, texts and residuals, and absurd counts.

use inputs::{full_log, long_policy, spelled_policy, spelled_text, PolicySpelling, Random, Spelling, FULL_LOG_TABLE};
use vitrinehawk::{
    audit, check_log, check_policy, dual, read_log, read_policy, reduce, write_log, write_policy, Refusal, Refused,
    MOST_ROWS, MOST_WORDS, PLACE_WORDS,
};

/// send (open), consent (complete), believes (its argument is an input, open).
const T: [i32; 9] = [3, 0, 0, 2, 0, 1, 1, 1, 0];

fn refused(refusal: Refusal, place: usize) -> Result<usize, Refused> {
    Err(Refused { refusal, place })
}

/// Checks that the dual has the policy's length, that it is accepted too, and that its dual is the policy.
fn check_duals(table: &[i32], policy: &[i32]) {
    let mut opposite = vec![-1; policy.len() + 5];
    assert_eq!(dual(table, policy, &mut opposite), Ok(policy.len()));
    let (opposite, rest) = opposite.split_at(policy.len());
    assert_eq!(rest, [0; 5]);
    assert_ne!(opposite, policy);
    assert_eq!(check_policy(table, opposite), check_policy(table, policy));
    let mut back = vec![-1; policy.len()];
    assert_eq!(dual(table, opposite, &mut back), Ok(policy.len()));
    assert!(back == policy);
    let mut short = vec![-1; policy.len() - 1];
    assert_eq!(dual(table, policy, &mut short), refused(Refusal::Room, 0));
    assert!(short.iter().all(|word| *word == 0));
}

#[test]
fn duals_of_the_examples() {
    let nested = [[6, 2, 1].repeat(63), vec![1]].concat();
    let examples: [(&[i32], usize); 12] = [
        (&[2, 0, 3, 0, 7, 0, 9, 0, 100], 1),
        (&[2, 1, 2, 0, 9, 0, 51], 1),
        (&[2, 2, 1, 0, 9], 1),
        (&[3, 1, 2, 0, 9, 0, 51], 1),
        (&[6, 2, 1, 2, 2, 1, 0, 9], 2),
        (&[6, 2, 2, 2, 1, 0, 9, 0], 2),
        (&[4, 50, 0, 50, 0, 100], 1),
        (&[4, 51, 0, 50, 0, 100], 1),
        (&[8, 3, 0, 2, 0, 3, 1, 0, 1, 1, 1, 2, 2, 2, 1, 1, 1], 3),
        (&[9, 1, 0, 2, 1, 2, 0, 9, 1, 0, 4, 0, 1, 0, 0, 100], 3),
        (&nested, 64),
        (&[1], 1),
    ];
    for (policy, level) in examples {
        assert_eq!(check_policy(&T, policy), Ok(level), "{policy:?}");
        check_duals(&T, policy);
    }
}

#[test]
fn the_longest_policies() {
    // Wide: one all-of with a million children.
    let mut wide = vec![1; MOST_WORDS];
    wide[..2].copy_from_slice(&[6, MOST_WORDS as i32 - 2]);
    assert_eq!(check_policy(&T, &wide), Ok(2));
    check_duals(&T, &wide);

    // Mixed: children of all kinds.
    let mut random = Random::new(0x5EED_0003);
    let mixed = long_policy(&mut random, &T, MOST_WORDS);
    assert_eq!(mixed.len(), MOST_WORDS);
    assert_eq!(check_policy(&T, &mixed), Ok(64));
    check_duals(&T, &mixed);

    // One quantifier with many excluded tuples.
    let front = [8, 4, 262_141];
    let back = [6, 2, 2, 1, 2, 1, 0, 1, 1];
    let mut excluded = [&front[..], &vec![-7; 4 * 262_141], &back, &[2, 1, 2, 1, 2, 1, 3, 1]].concat();
    assert_eq!(excluded.len(), 1_048_584);
    assert_eq!(check_policy(&T, &excluded), refused(Refusal::PolicyLength, 0));
    excluded.drain(3..11);
    excluded[2] -= 2;
    assert_eq!(excluded.len(), MOST_WORDS);
    assert_eq!(check_policy(&T, &excluded), Ok(4));
    check_duals(&T, &excluded);
}

#[test]
fn one_word_too_many() {
    let mut words = vec![1; MOST_WORDS + 1];
    words[..2].copy_from_slice(&[6, MOST_WORDS as i32 - 1]);
    assert_eq!(check_policy(&T, &words), refused(Refusal::PolicyLength, 0));
    let mut buffer = vec![3; MOST_WORDS + 1];
    assert_eq!(dual(&T, &words, &mut buffer), refused(Refusal::PolicyLength, 0));
    assert!(buffer.iter().all(|word| *word == 0));
    // Nothing but its length counts.
    assert_eq!(
        check_policy(&T, &vec![-9; MOST_WORDS + 1]),
        refused(Refusal::PolicyLength, 0)
    );
    assert_eq!(check_policy(&T, &[]), refused(Refusal::PolicyLength, 0));
}

#[test]
fn places_at_the_end() {
    // The last place of all: a missing node behind the greatest number of words.
    let mut words = vec![0; MOST_WORDS];
    words[..2].copy_from_slice(&[7, i32::MAX]);
    assert_eq!(check_policy(&T, &words), refused(Refusal::Shape, MOST_WORDS));
    // The last word, behind the tree.
    words[1] = MOST_WORDS as i32 - 3;
    assert_eq!(check_policy(&T, &words), refused(Refusal::Shape, MOST_WORDS - 1));
    // A node at the last word.
    words[1] = MOST_WORDS as i32 - 2;
    words[MOST_WORDS - 1] = 6;
    assert_eq!(check_policy(&T, &words), refused(Refusal::Shape, MOST_WORDS - 1));
}

#[test]
fn absurd_counts() {
    let most = i32::MAX;
    for tag in [6, 7] {
        assert_eq!(check_policy(&T, &[tag, most]), refused(Refusal::Shape, 2));
        assert_eq!(check_policy(&T, &[tag, most, 1, 1, 1]), refused(Refusal::Shape, 5));
        assert_eq!(
            check_policy(&T, &[8, 1, 0, tag, most, 1, 1]),
            refused(Refusal::Shape, 7)
        );
    }
    // Nested ones.
    assert_eq!(check_policy(&T, &[6, most].repeat(64)), refused(Refusal::Shape, 128));
    assert_eq!(check_policy(&T, &[6, most].repeat(65)), refused(Refusal::Level, 128));
    for tag in [8, 9] {
        for variables in 1..=4 {
            for tuples in [most, 1 << 30, (1 << 30) + 1, 1 << 29] {
                let policy = [tag, variables, tuples, 1, 1, 1, 1];
                assert_eq!(check_policy(&T, &policy), refused(Refusal::Shape, 0));
                assert_eq!(dual(&T, &policy, &mut [1; 7]), refused(Refusal::Shape, 0));
            }
        }
    }
}

#[test]
fn the_longest_logs() {
    let log = full_log(4097);
    let rows = |count: usize| &log[..8 * count];
    assert_eq!(check_log(&FULL_LOG_TABLE, rows(4096)), Ok(4096));
    assert_eq!(check_log(&FULL_LOG_TABLE, rows(4097)), refused(Refusal::LogLength, 0));
    assert_eq!(
        check_log(&FULL_LOG_TABLE, &log[..8 * 4096 + 1]),
        refused(Refusal::LogLength, 0)
    );
    // The last row repeats the first, or is bad.
    let mut repeated = rows(4096).to_vec();
    repeated.copy_within(0..8, 8 * 4095);
    assert_eq!(check_log(&FULL_LOG_TABLE, &repeated), refused(Refusal::Repeat, 4095));
    repeated[8 * 4095 + 7] = 1;
    assert_eq!(check_log(&FULL_LOG_TABLE, &repeated), refused(Refusal::Row, 4095));
}

/// The plain text of rows of the full log.
fn text_of(log: &[i32]) -> Vec<u8> {
    spelled_text(&mut Random::new(0), &FULL_LOG_TABLE, log, Spelling::PLAIN)
}

/// Reads over the full log's table into a buffer of so many words, full of others at first, and checks that only the
/// rows' words are left in it.
fn read(text: &[u8], room: usize) -> (Result<usize, Refused>, Vec<i32>) {
    let mut buffer = vec![-1; room];
    let answer = read_log(&FULL_LOG_TABLE, text, &mut buffer);
    let rest = buffer.split_off(8 * answer.unwrap_or(0));
    assert!(rest.iter().all(|word| *word == 0));
    (answer, buffer)
}

#[test]
fn the_longest_texts() {
    let log = full_log(4097);
    let rows = |count: usize| &log[..8 * count];
    let full = text_of(rows(MOST_ROWS));
    let words = 8 * MOST_ROWS;
    for room in [words, words + 9] {
        let (answer, read) = read(&full, room);
        assert_eq!(answer, Ok(MOST_ROWS));
        assert!(read == rows(MOST_ROWS));
    }
    for room in [0, 8, words - 1] {
        assert_eq!(read(&full, room).0, refused(Refusal::Room, 0));
    }
    let mut buffer = vec![1; full.len() + 3];
    assert_eq!(write_log(&FULL_LOG_TABLE, rows(MOST_ROWS), &mut buffer), Ok(full.len()));
    assert!(buffer[..full.len()] == full && buffer[full.len()..] == [0; 3]);
    buffer.fill(1);
    let short = &mut buffer[..full.len() - 1];
    assert_eq!(
        write_log(&FULL_LOG_TABLE, rows(MOST_ROWS), short),
        refused(Refusal::Room, 0)
    );
    assert!(short.iter().all(|byte| *byte == 0));
    assert_eq!(
        write_log(&FULL_LOG_TABLE, rows(4097), &mut buffer),
        refused(Refusal::LogLength, 0)
    );

    // One row too many, whatever the buffer; a record behind it that is no row; a byte behind that one.
    let mut text = text_of(rows(4097));
    for room in [0, words, words + 8] {
        assert_eq!(read(&text, room).0, refused(Refusal::LogLength, 0));
    }
    text.extend(full.repeat(2));
    assert_eq!(read(&text, words).0, refused(Refusal::LogLength, 0));
    text.extend(b"0,1\r\n");
    assert_eq!(read(&text, words).0, refused(Refusal::Record, 4097 + 2 * 4096));
    text.extend(b"\n");
    assert_eq!(read(&text, words).0, refused(Refusal::Csv, text.len() - 1));
}

#[test]
fn repeated_atoms_in_the_longest_texts() {
    // The last row repeats the first, the middle one, or the one before. A short buffer makes no difference.
    let log = full_log(4095);
    for row in [0, 2047, 4094] {
        let mut repeated = log.clone();
        repeated.extend_from_within(8 * row..8 * row + 8);
        let truth = 8 * 4095 + 1;
        repeated[truth] = 1 - repeated[truth];
        for room in [0, 8, 8 * 4095, 8 * 4096] {
            assert_eq!(read(&text_of(&repeated), room).0, refused(Refusal::Repeat, 4095));
        }
        assert_eq!(
            write_log(&FULL_LOG_TABLE, &repeated, &mut []),
            refused(Refusal::Repeat, 4095)
        );
    }
}

/// Fields, records and texts with more bytes than a policy may have words.
#[test]
fn very_long_fields() {
    let length = 2 * MOST_WORDS;
    let row = b"0,1,7,7,7\r\n";
    let digits = vec![b'1'; length];
    let zeros = vec![b'0'; length];
    let quotes = vec![b'"'; length];
    let commas = vec![b','; length];
    let line_ends = b"\r\n".repeat(length);
    for bad in [&digits, &zeros, &quotes, &commas, &line_ends] {
        assert_eq!(read(bad, 8).0, refused(Refusal::Record, 0));
        assert_eq!(read(&[row, &bad[..]].concat(), 8).0, refused(Refusal::Record, 1));
    }
    // An odd number of quotes leaves the field open; the place is the end.
    assert_eq!(read(&quotes[1..], 8).0, refused(Refusal::Csv, length - 1));
    assert_eq!(
        read(&[row, &quotes[1..]].concat(), 8).0,
        refused(Refusal::Csv, row.len() + length - 1)
    );
    // A bad byte behind a long field, and the last of many records.
    for byte in [b'\n', b'"', 0, 127, 255] {
        assert_eq!(
            read(&[&digits[..], &[byte]].concat(), 8).0,
            refused(Refusal::Csv, length)
        );
    }
    let many = b"1,1,1,2,3,4,5,6\r\n".repeat(100_000);
    assert_eq!(read(&many, 8).0, refused(Refusal::LogLength, 0));
    assert_eq!(
        read(&[&many[..], b"1"].concat(), 8).0,
        refused(Refusal::Record, 100_000)
    );
}

/// Reads a policy's text into a buffer of so many words, full of others at first, and checks that only the policy's
/// words are left in it.
fn read_words(text: &[u8], room: usize) -> (Result<usize, Refused>, Vec<i32>) {
    let mut buffer = vec![-1; room];
    let answer = read_policy(&T, text, &mut buffer);
    let rest = buffer.split_off(answer.unwrap_or(0));
    assert!(rest.iter().all(|word| *word == 0));
    (answer, buffer)
}

/// Checks that a long policy is written and read back, with buffers that just fit, are longer, and are too short.
/// Returns its text.
fn check_text(policy: &[i32]) -> Vec<u8> {
    let text = spelled_policy(&mut Random::new(0), policy, PolicySpelling::PLAIN);
    let (words, bytes) = (policy.len(), text.len());
    assert!(words <= bytes && bytes <= 18 * words + 14);
    for room in [words, words + 9] {
        let (answer, read) = read_words(&text, room);
        assert!(answer == Ok(words) && read == policy);
    }
    for room in [0, words - 1] {
        assert_eq!(read_words(&text, room).0, refused(Refusal::Room, 0));
    }
    let mut buffer = vec![1; bytes + 3];
    assert_eq!(write_policy(&T, policy, &mut buffer), Ok(bytes));
    assert!(buffer[..bytes] == text && buffer[bytes..] == [0; 3]);
    buffer.fill(1);
    let short = &mut buffer[..bytes - 1];
    assert_eq!(write_policy(&T, policy, short), refused(Refusal::Room, 0));
    assert!(short.iter().all(|byte| *byte == 0));
    text
}

/// So many operands of an any-of.
fn wide_text(operand: &str, count: usize) -> Vec<u8> {
    format!("tff(a,axiom,{}).", vec![operand; count].join("|")).into_bytes()
}

#[test]
fn the_longest_policy_texts() {
    // Wide: one any-of with a million children. With one child more it is refused, whatever the buffer.
    let mut wide = vec![1; MOST_WORDS];
    wide[..2].copy_from_slice(&[7, MOST_WORDS as i32 - 2]);
    assert!(check_text(&wide) == wide_text("$true", MOST_WORDS - 2));
    let longer = wide_text("$true", MOST_WORDS - 1);
    for room in [0, MOST_WORDS, MOST_WORDS + 1] {
        assert_eq!(read_words(&longer, room).0, refused(Refusal::PolicyLength, 0));
    }
    // Whatever else is wrong with the words, but not with the text.
    let atoms = |count| wide_text("p9(1)", count);
    assert_eq!(read_words(&atoms(209_714), 0).0, refused(Refusal::Predicate, 2));
    assert_eq!(read_words(&atoms(209_715), 0).0, refused(Refusal::PolicyLength, 0));
    let text = atoms(3_000_000);
    assert_eq!(read_words(&text, 9).0, refused(Refusal::PolicyLength, 0));
    let last = text.len() - 1;
    assert_eq!(read_words(&text[..last], 9).0, refused(Refusal::Tptp, last));
    assert_eq!(
        read_words(&[&text[..], b"%"].concat(), 9).0,
        refused(Refusal::Tptp, last + 1)
    );
    let mut buffer = [1; 9];
    let words = [&[6, MOST_WORDS as i32 - 1], &vec![1; MOST_WORDS - 1][..]].concat();
    assert_eq!(write_policy(&T, &words, &mut buffer), refused(Refusal::PolicyLength, 0));
    assert_eq!(buffer, [0; 9]);

    // Mixed: children of all kinds.
    let mixed = long_policy(&mut Random::new(0x5EED_0004), &T, MOST_WORDS);
    check_text(&mixed);
}

#[test]
fn the_longest_policy_texts_with_excluded_tuples() {
    // A for-all that binds so many variables from a number on, each by an atom, with tuples of the least number.
    let for_all = |from: i32, variables: i32, tuples: usize| {
        let atoms = (from..from + variables).flat_map(|number| [2, 1, 2, 1, number, 1, number]);
        let tuple = vec![i32::MIN; variables as usize];
        let front = [8, variables, tuples as i32];
        [
            &front,
            &tuple.repeat(tuples)[..],
            &[6, variables],
            &atoms.collect::<Vec<_>>(),
        ]
        .concat()
    };
    // Sixteen variables in all. A tuple of the last two takes 36 bytes, and so 18 for each word.
    let outer = [for_all(0, 4, 0), for_all(4, 4, 0), for_all(8, 4, 0), for_all(12, 2, 0)].concat();
    let policy = |tuples| [&outer[..], &for_all(14, 2, tuples), &[1]].concat();
    let tuples = (MOST_WORDS - policy(0).len()) / 2;
    assert!(policy(tuples).len() >= MOST_WORDS - 1);
    let text = check_text(&policy(tuples));
    assert!(text.len() > 18 * MOST_WORDS - 3_000);
    let longer = spelled_policy(&mut Random::new(0), &policy(tuples + 1), PolicySpelling::PLAIN);
    assert_eq!(read_words(&longer, 0).0, refused(Refusal::PolicyLength, 0));
    // The last atom of the restriction, behind them all, breaks the mode rule.
    let mut unbound = policy(tuples);
    let last = unbound.len() - 1;
    assert_eq!(unbound[last - 7..last], [2, 1, 2, 1, 15, 1, 15]);
    unbound[last - 7] = 3;
    let text = spelled_policy(&mut Random::new(0), &unbound, PolicySpelling::PLAIN);
    for room in [0, MOST_WORDS] {
        assert_eq!(read_words(&text, room).0, refused(Refusal::Mode, last - 7));
    }
    assert_eq!(write_policy(&T, &unbound, &mut []), refused(Refusal::Mode, last - 7));
}

/// Names, numbers and blanks with more bytes than a policy may have words.
#[test]
fn very_long_tokens() {
    let length = 2 * MOST_WORDS;
    let [letters, digits, blanks] = [b'a', b'1', b' '].map(|byte| vec![byte; length]);
    let with = |front: &str, long: &[u8], back: &str| [front.as_bytes(), long, back.as_bytes()].concat();
    assert_eq!(
        read_words(&with("tff(", &letters, ",axiom,$true)."), 1),
        (Ok(1), vec![1])
    );
    assert_eq!(
        read_words(&with("tff(", &letters, "%"), 1).0,
        refused(Refusal::Tptp, 4 + length)
    );
    for (front, back) in [
        ("", "tff(a,axiom,$true)."),
        ("tff(a,axiom,", "$true)."),
        ("tff(a,axiom,$true).", ""),
    ] {
        assert_eq!(read_words(&with(front, &blanks, back), 1), (Ok(1), vec![1]));
        assert_eq!(
            read_words(&with(front, &blanks, "%"), 1).0,
            refused(Refusal::Tptp, front.len() + length)
        );
    }
    // A tenth digit is the last one, and an eleventh is too many.
    for front in [
        "tff(a,axiom,p2(",
        "tff(a,axiom,p2(X",
        "tff(a,axiom,p2(-",
        "tff(a,axiom,p",
    ] {
        assert_eq!(
            read_words(&with(front, &digits, ""), 1).0,
            refused(Refusal::Tptp, front.len() + 10)
        );
    }
    assert_eq!(
        read_words(&with("tff(a,axiom,p2(", &vec![b'0'; length], ""), 1).0,
        refused(Refusal::Tptp, 16)
    );
}

/// A policy with 4,096 instances, the body of each an any-of of so many open atoms; with its table and its log.
fn many_instances(atoms: usize) -> ([i32; 6], Vec<i32>, Vec<i32>) {
    let table = [1, 0, 0, 2, 0, 0];
    let mut policy = vec![8, 1, 0, 2, 0, 1, 1, 0, 7, atoms as i32];
    policy.extend([2, 1, 2, 1, 0, 0, -1].repeat(atoms));
    let log = (0..4096).flat_map(|x| [0, 1, x, 0, 0, 0, 0, 0]).collect();
    (table, policy, log)
}

#[test]
fn the_longest_residuals() {
    let words = |atoms: usize| {
        let body = 2 + 7 * atoms;
        2 + 4096 * body + 3 + 4096 + 5 + body
    };
    assert!(words(36) <= MOST_WORDS && words(37) > MOST_WORDS);
    for (atoms, accepted) in [(36, true), (37, false)] {
        let (table, policy, log) = many_instances(atoms);
        let expected = if accepted {
            Ok(words(atoms))
        } else {
            refused(Refusal::Room, 0)
        };
        let mut scratch = vec![5; PLACE_WORDS * 4097];
        let mut buffer = vec![5; MOST_WORDS + 40_000];
        let answer = reduce(&table, &policy, &log, &mut scratch, &mut buffer);
        assert_eq!(answer, expected);
        let count = answer.unwrap_or(0);
        assert!(scratch.iter().chain(&buffer[count..]).all(|word| *word == 0));
        let audited = audit(&table, &policy, &log, 10 * MOST_WORDS);
        assert_eq!(audited.as_ref().map(Vec::len).map_err(|refused| *refused), expected);
        assert!(audited.is_err() || audited.as_deref() == Ok(&buffer[..count]));
    }
}

#[test]
fn exactly_the_greatest_residual() {
    // Open atoms, and plain nodes behind them that vanish.
    let atoms = (MOST_WORDS - 2) / 5;
    let mut policy = vec![6, atoms as i32];
    policy.extend([2, 2, 1, 0, 4].repeat(atoms));
    assert_eq!(MOST_WORDS - policy.len(), 4);
    policy[1] += 3;
    policy.extend([1, 1, 1]);
    let length = policy.len() - 3;
    let mut buffer = vec![-1; length];
    assert_eq!(reduce(&T, &policy, &[], &mut [], &mut buffer), Ok(length));
    policy.truncate(length);
    policy[1] -= 3;
    assert!(buffer == policy);
    assert_eq!(
        reduce(&T, &policy, &[], &mut [], &mut buffer[1..]),
        refused(Refusal::Room, 0)
    );
    // Exactly the greatest number of words.
    let table = [1, 0, 0, 3, 0, 0];
    let mut policy = vec![6, atoms as i32];
    policy.extend([2, 0, 1, 0, 4].repeat(atoms - 1));
    policy.extend([2, 1, 3, 0, 1, 0, 2, 0, 3]);
    assert_eq!(policy.len(), MOST_WORDS);
    let mut buffer = vec![-1; MOST_WORDS + 1];
    assert_eq!(reduce(&table, &policy, &[], &mut [], &mut buffer), Ok(MOST_WORDS));
    assert!(buffer[..MOST_WORDS] == policy && buffer[MOST_WORDS] == 0);
    assert!(audit(&table, &policy, &[], MOST_WORDS).as_ref() == Ok(&policy));
    let refusal = Refusal::Room;
    assert_eq!(
        audit(&table, &policy, &[], MOST_WORDS - 1),
        Err(Refused { refusal, place: 0 })
    );
}

#[test]
fn a_need_beyond_all_room() {
    // Four variables over 4,096 rows: some 2^48 entries. The refusal comes soon all the same.
    let table = [1, 0, 0];
    let atoms: Vec<i32> = (0..4).flat_map(|x| [2, 0, 1, 1, x]).collect();
    let policy = [&[8, 4, 0, 6, 4], &atoms[..], &[0]].concat();
    let log: Vec<i32> = (0..4096).flat_map(|x| [0, 1, x, 0, 0, 0, 0, 0]).collect();
    let mut scratch = vec![5; 1_000_003];
    let mut buffer = [5; 9];
    let answer = reduce(&table, &policy, &log, &mut scratch, &mut buffer);
    assert_eq!(answer, refused(Refusal::Scratch, 0));
    assert!(scratch.iter().chain(&buffer).all(|word| *word == 0));
    let refusal = Refusal::Scratch;
    assert_eq!(
        audit(&table, &policy, &log, 1_000_003),
        Err(Refused { refusal, place: 0 })
    );
}
