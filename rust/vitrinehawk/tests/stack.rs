//! The deepest policies and the longest logs, as words and as text, on a small stack.

use inputs::{deep_policy_texts, full_log, FULL_LOG_TABLE};
use reference::PLACE;
use vitrinehawk::{
    check_log, check_policy, dual, read_log, read_policy, reduce, write_log, write_policy, Refusal, Refused,
};

/// link (two arguments, open), seen (one argument, open), known (one argument, complete).
const TABLE: [i32; 9] = [2, 0, 0, 1, 0, 0, 1, 0, 1];

const SEEN_1: [i32; 8] = [1, 1, 1, 0, 0, 0, 0, 0];

/// Runs something in a thread with a stack of so many KiB.
fn on_a_stack_of<T: Send + 'static>(kibibytes: usize, run: impl FnOnce() -> T + Send + 'static) -> T {
    let small = std::thread::Builder::new().stack_size(kibibytes << 10);
    small.spawn(run).unwrap().join().unwrap()
}

/// Makes the calls on a small stack, with just enough scratch and buffers, and compares them with the reference.
/// Returns the residual.
fn check(policy: &[i32], log: &[i32], level: usize, places: usize) -> Vec<i32> {
    let needed = reference::places(&TABLE, policy, log).unwrap();
    assert_eq!(needed, places);
    let residual = reference::residual(&TABLE, policy, log, PLACE * places, usize::MAX).unwrap();
    let mut opposite = vec![0; policy.len()];
    reference::dual(&TABLE, policy, &mut opposite);
    check_text(policy);
    check_text(&residual);

    let (policy, log, length) = (policy.to_vec(), log.to_vec(), residual.len());
    let (mut scratch, mut buffer, mut swapped) = (vec![1; PLACE * places], vec![2; length], vec![3; policy.len()]);
    let (answers, scratch, buffer, swapped) = on_a_stack_of(256, move || {
        let answers = [
            check_policy(&TABLE, &policy),
            dual(&TABLE, &policy, &mut swapped),
            reduce(&TABLE, &policy, &log, &mut scratch, &mut buffer),
        ];
        (answers, scratch, buffer, swapped)
    });
    assert_eq!(answers, [Ok(level), Ok(swapped.len()), Ok(length)]);
    assert!(scratch.iter().all(|word| *word == 0));
    assert!(buffer == residual && swapped == opposite);
    residual
}

/// Writes a policy as text on a small stack and reads it back, with just enough room and with none.
fn check_text(policy: &[i32]) {
    let text = reference::text_of_policy(&TABLE, policy).unwrap();
    let (mut words, mut bytes) = (vec![1; policy.len()], vec![2; text.len()]);
    let (given_policy, given_text) = (policy.to_vec(), text.clone());
    let (answers, words, bytes) = on_a_stack_of(256, move || {
        let answers = [
            write_policy(&TABLE, &given_policy, &mut bytes),
            write_policy(&TABLE, &given_policy, &mut []),
            read_policy(&TABLE, &given_text, &mut words),
            read_policy(&TABLE, &given_text, &mut []),
        ];
        (answers, words, bytes)
    });
    let refusal = Refusal::Room;
    let no_room = Err(Refused { refusal, place: 0 });
    assert_eq!(answers, [Ok(text.len()), no_room, Ok(policy.len()), no_room]);
    assert!(words == policy && bytes == text);
}

/// As many parentheses open at once as there may be, and one more, at all depths between.
#[test]
fn the_deepest_texts() {
    for open in [60, 80, 128, 200, 256, 257, 400] {
        for deep in deep_policy_texts(open) {
            let mut words = vec![0; 2_000];
            let expected = reference::read_policy(&TABLE, &deep.text, &mut words);
            let text = deep.text;
            let (answer, read) = on_a_stack_of(256, move || {
                let mut buffer = vec![1; 2_000];
                let answer = read_policy(&TABLE, &text, &mut buffer);
                assert!(read_policy(&TABLE, &text, &mut []).is_err());
                (answer, buffer)
            });
            let (number, place) = answer.map_or_else(|refused| (refused.refusal.number(), refused.place), |_| (0, 0));
            assert_eq!((number, place), (expected.number, expected.place), "{}", deep.name);
            assert!(read == words, "{}", deep.name);
        }
    }
}

/// Parentheses without anything between them, more than any stack could hold.
#[test]
fn a_million_parentheses() {
    for (front, place) in [("tff(a,axiom,", 12 + 255), ("tff(a,axiom,$true&", 18 + 255), ("tff", 4)] {
        let text = [front.as_bytes(), &vec![b'('; 1_000_000]].concat();
        let answer = on_a_stack_of(256, move || read_policy(&TABLE, &text, &mut [1; 9]));
        let refusal = if place == 4 { Refusal::Tptp } else { Refusal::Level };
        assert_eq!(answer, Err(Refused { refusal, place }));
    }
}

/// An atom that no log here knows.
const OPEN: [i32; 5] = [2, 1, 1, 0, 9];

/// So many joins, one in the other, of both kinds in turn, each with an open atom and the next; last an open atom.
fn joins(count: usize) -> Vec<i32> {
    let headers = (0..count).flat_map(|level| [[6 + level as i32 % 2, 2].as_slice(), &OPEN].concat());
    headers.chain(OPEN).collect()
}

#[test]
fn sixty_four_levels_of_joins() {
    let policy = joins(63);
    assert_eq!(check(&policy, &[], 64, 0), policy);
    assert_eq!(check(&policy, &SEEN_1, 64, 0), policy);
}

#[test]
fn sixty_four_levels_of_joins_in_a_restriction() {
    // For all x with seen(x), and again, and again, ...: false.
    for tag in [6, 7] {
        let policy = [&[8, 1, 0], &seen_in_joins(tag, 61, 0)[..], &[0]].concat();
        // All-of: each node has one entry. Any-of: one more at each level from below.
        let joined = if tag == 6 { 61 } else { (2..=62).sum::<usize>() };
        assert_eq!(check(&policy, &SEEN_1, 64, 1 + 62 + joined), [0]);
    }
}

/// seen of a variable.
fn seen(variable: usize) -> Vec<i32> {
    vec![2, 1, 1, 1, variable as i32]
}

/// seen of a variable in so many joins, one in the other.
fn seen_in_joins(tag: i32, count: usize, variable: usize) -> Vec<i32> {
    let header = [vec![tag, 2], seen(variable)].concat();
    [header.repeat(count), seen(variable)].concat()
}

/// Sixteen quantifiers with these headers in turn, one in the other. The restrictions of the first fifteen use up the
/// variables: for some y, some z, ...: seen of x and all of these.
fn quantifiers(headers: [&[i32]; 2], last_restriction: &[i32], last_body: &[i32]) -> Vec<i32> {
    let mut policy = Vec::new();
    for variable in 0..15 {
        let somes = 15 - variable;
        policy.extend(headers[variable % 2]);
        policy.extend(vec![10; somes]);
        policy.extend([6, 1 + somes as i32]);
        policy.extend((variable..16).flat_map(seen));
    }
    policy.extend(headers[1]);
    policy.extend(last_restriction);
    policy.extend(last_body);
    policy
}

/// The places that these quantifiers need, if each list has one entry and the last restriction has so many nodes.
fn places_of_quantifiers(last_nodes: usize) -> usize {
    let nodes = |somes: usize| somes + 1 + (1 + somes);
    (1..=15).map(|somes| 1 + nodes(somes)).sum::<usize>() + 1 + last_nodes
}

#[test]
fn sixteen_quantifiers_in_each_other() {
    // For all and exists in turn cost two levels each; then joins down to level 64.
    let headers: [&[i32]; 2] = [&[8, 1, 0], &[9, 1, 0]];
    let policy = quantifiers(headers, &seen(15), &joins(31));
    let residual = check(&policy, &SEEN_1, 64, places_of_quantifiers(1));
    assert!(residual.len() > policy.len());
    // Over an empty log nothing happens below the first one.
    assert_eq!(check(&policy, &[], 64, 1), policy);
    // The joins in the last restriction instead.
    let policy = quantifiers(headers, &seen_in_joins(6, 31, 15), &OPEN);
    check(&policy, &SEEN_1, 64, places_of_quantifiers(31 + 32));
}

#[test]
fn sixteen_quantifiers_under_joins() {
    // For-alls directly under all-ofs cost one level each; so do the all-ofs, which take an open atom first.
    let header = [&[6, 2], &OPEN[..], &[8, 1, 0]].concat();
    let policy = quantifiers([&header, &header], &seen(15), &joins(31));
    let residual = check(&policy, &SEEN_1, 64, places_of_quantifiers(1));
    assert_eq!(residual[0], 6);
    let policy = quantifiers([&header, &header], &seen_in_joins(6, 31, 15), &OPEN);
    check(&policy, &SEEN_1, 64, places_of_quantifiers(31 + 32));
    // Any-ofs above for-alls: three levels each.
    let header = [&[7, 2], &OPEN[..], &[8, 1, 0]].concat();
    let policy = quantifiers([&header, &header], &seen(15), &joins(15));
    let residual = check(&policy, &SEEN_1, 64, places_of_quantifiers(1));
    assert_eq!(residual[0], 7);
}

/// A row for each of so many numbers.
fn seen_rows(count: i32) -> Vec<i32> {
    (0..count).flat_map(|x| [1, 1, x, 0, 0, 0, 0, 0]).collect()
}

#[test]
fn four_thousand_instances() {
    // For all x with seen(x): link(x, 7), or x is known.
    let policy = [8, 1, 0, 2, 1, 1, 1, 0, 7, 2, 2, 0, 2, 1, 0, 0, 7, 2, 2, 1, 1, 0];
    let residual = check(&policy, &seen_rows(4096), 4, 4097);
    assert_eq!(residual[..2], [6, 4097]);
    // All but one of them below another instance: for all x with known(x), all y with seen(y): link(x, y).
    let policy = [8, 1, 0, 2, 2, 1, 1, 0, 8, 1, 0, 2, 1, 1, 1, 1, 2, 0, 2, 1, 0, 1, 1];
    let log = [seen_rows(4095), vec![2, 1, 5, 0, 0, 0, 0, 0]].concat();
    let residual = check(&policy, &log, 5, 2 + 4096);
    assert_eq!(residual[..2], [6, 4096]);
}

/// The frame of the log check has 48 KiB of links and keys; the rest of a small stack is enough for everything else.
#[test]
fn the_longest_log_on_a_small_stack() {
    let log = full_log(4096);
    let checked = on_a_stack_of(64, move || check_log(&FULL_LOG_TABLE, &log));
    assert_eq!(checked, Ok(4096));
}

#[test]
fn the_longest_log_as_text_on_a_small_stack() {
    let log = full_log(4096);
    let text = reference::text_of_log(&FULL_LOG_TABLE, &log).unwrap();
    let (mut words, mut bytes) = (vec![1; log.len()], vec![2; text.len()]);
    let (given_log, given_text) = (log.clone(), text.clone());
    let (answers, words, bytes) = on_a_stack_of(256, move || {
        let answers = [
            read_log(&FULL_LOG_TABLE, &given_text, &mut words),
            read_log(&FULL_LOG_TABLE, &given_text, &mut []),
            write_log(&FULL_LOG_TABLE, &given_log, &mut bytes),
        ];
        (answers, words, bytes)
    });
    let refusal = Refusal::Room;
    let no_room = Err(Refused { refusal, place: 0 });
    assert_eq!(answers, [Ok(4096), no_room, Ok(text.len())]);
    assert!(words == log && bytes == text);
}
