//! Runs: lists of reductions over front parts of one log, each given the residual of the one before.
//!
//! Each call is compared with the reference. After each accepted call its part has nothing left to decide, and the residual
//! has no more levels than the policy before it. The policy held at the end has the truth of the first one in extensions of
//! the whole log, whose rows stand in any order, if no row behind the part of an accepted call makes true an atom of a
//! complete predicate.

use inputs::{extension, shrink, Case, Random};
use reference::truth::Structure;
use reference::{read_table, Answer, Log, Policy, PLACE};
use vitrinehawk::{check_policy, reduce, Refused};

/// Rows use 0 to 2; 3 is a value that only rows of extensions have.
const UNIVERSE: [i32; 4] = [0, 1, 2, 3];

/// A call of a run as words: the rows of its part, the words of scratch, the words of the buffer.
const CALL: usize = 3;

/// What was seen in a run.
#[derive(Clone, Debug, Default)]
struct Seen {
    /// Answers by their numbers.
    answers: [usize; 13],
    /// Accepted calls that changed the policy held.
    changes: usize,
    /// Whether the proviso holds.
    proviso: bool,
    /// The truths of the first and of the last policy, in extensions of the log.
    truths: Vec<[Option<bool>; 2]>,
}

/// The answer and the words of scratch and buffer, if the library and the reference agree on all of them.
fn call(table: &[i32], held: &[i32], part: &[i32], lent: [usize; 2]) -> Result<(Answer, Vec<i32>), String> {
    let dirty = |length: usize| -> Vec<i32> { (0..length as i32).map(|word| word % 11 - 3).collect() };
    let [mut scratch, mut buffer] = lent.map(dirty);
    let answer = match reduce(table, held, part, &mut scratch, &mut buffer) {
        Ok(count) => Answer::accepted(count),
        Err(Refused { refusal, place }) => Answer::refused(refusal.number(), place),
    };
    let [mut other_scratch, mut other_buffer] = lent.map(dirty);
    let expected = reference::reduce(table, held, part, &mut other_scratch, &mut other_buffer);
    if (answer, &scratch, &buffer) != (expected, &other_scratch, &other_buffer) {
        return Err(format!("{answer:?} {buffer:?}, but {expected:?} {other_buffer:?}"));
    }
    buffer.truncate(answer.count);
    Ok((answer, buffer))
}

/// Runs a list of calls. `Err` tells what is wrong; a run with a bad log or policy has nothing wrong.
fn run(parts: &[Vec<i32>]) -> Result<Seen, String> {
    let [table, policy, log, calls] = parts else {
        panic!("a run has four parts");
    };
    let mut seen = Seen::default();
    let Ok(predicates) = read_table(table) else {
        return Ok(seen);
    };
    let (Ok(first), Ok(whole)) = (Policy::read(&predicates, policy), Log::read(&predicates, log)) else {
        return Ok(seen);
    };
    if log
        .chunks(8)
        .any(|row| row[2..].iter().any(|word| !UNIVERSE.contains(word)))
    {
        return Ok(seen);
    }
    seen.proviso = true;
    let mut held = policy.clone();
    let mut levels = first.greatest_level;
    for words in calls.chunks_exact(CALL) {
        let [rows, scratch, buffer] = [words[0], words[1], words[2]].map(|word| word.clamp(0, 1 << 20) as usize);
        let part = &log[..8 * rows.min(whole.rows())];
        let (answer, residual) = call(table, &held, part, [scratch, buffer])?;
        seen.answers[answer.number as usize] += 1;
        if answer.number != 0 {
            continue;
        }
        seen.changes += usize::from(residual != held);
        held = residual;
        let makes_true = |row: &[i32]| row[1] == 1 && predicates[row[0] as usize].complete;
        seen.proviso &= !log[part.len()..].chunks(8).any(makes_true);
        match check_policy(table, &held) {
            Ok(level) if level <= levels => levels = level,
            other => return Err(format!("the residual {held:?} is checked with {other:?}")),
        }
        let part = Log::read(&predicates, part).expect("a front part of a good log");
        let residual = Policy::read(&predicates, &held).expect("checked").root;
        if !structure(&part).is_settled(&residual) {
            return Err(format!("{held:?} has something left to work"));
        }
    }
    let last = Policy::read(&predicates, &held).expect("checked").root;
    let mut random = Random::new(0xC000);
    let extensions = (0..4).map(|most| extension(&mut random, table, log, &UNIVERSE, 10 * most));
    for extended in extensions {
        let extended = Log::read(&predicates, &extended).expect("a good log");
        let truths = [&first.root, &last].map(|formula| structure(&extended).truth(formula));
        if seen.proviso && truths[0] != truths[1] {
            return Err(format!("{held:?} has another truth: {truths:?}"));
        }
        seen.truths.push(truths);
    }
    Ok(seen)
}

fn structure<'a>(log: &'a Log<'a>) -> Structure<'a> {
    let universe = &UNIVERSE;
    Structure { log, universe }
}

/// A case whose policy the whole log mostly changes but does not decide.
fn random_case(random: &mut Random) -> Case {
    loop {
        let case = Case::small(random);
        let residual = reference::residual(&case.table, &case.policy, &case.log, usize::MAX, usize::MAX);
        let residual = residual.expect("accepted");
        if (residual.len() > 1 && residual != case.policy) || random.once_in(6) {
            return case;
        }
    }
}

/// A table, a policy, a log and a list of calls. The true rows of complete predicates mostly come first.
fn random_run(random: &mut Random) -> Vec<Vec<i32>> {
    let Case { table, policy, log } = random_case(random);
    let is_settled = |row: &&[i32]| row[1] == 1 && table[3 * row[0] as usize + 2] == 1;
    let (settled, others): (Vec<&[i32]>, Vec<&[i32]>) = log.chunks(8).partition(is_settled);
    let least = settled.len();
    let sorted = [settled, others].concat().concat();
    let log = if random.once_in(4) { log.clone() } else { sorted };
    let rows = log.len() / 8;

    let shortest = if random.once_in(4) { 0 } else { least };
    let mut lengths: Vec<usize> = (0..random.below(7)).map(|_| random.between(shortest, rows)).collect();
    if random.once_in(2) {
        lengths.sort_unstable();
    }
    let mut calls = Vec::new();
    let mut held = policy.clone();
    for part in lengths {
        let places = reference::places(&table, &held, &log[..8 * part]).expect("accepted");
        let residual = reference::residual(&table, &held, &log[..8 * part], usize::MAX, usize::MAX).expect("accepted");
        let enough = PLACE * places;
        let scratch = random.pick(&[enough, enough, enough, enough + 1, enough.saturating_sub(1)]);
        let length = residual.len();
        let buffer = random.pick(&[length, length, length, length + 7, length - 1]);
        calls.extend([part, scratch, buffer].map(|number| number as i32));
        if scratch >= enough && buffer >= length {
            held = residual;
        }
    }
    vec![table, policy, log, calls]
}

#[test]
fn runs_keep_the_truth() {
    let seed = 0xC001;
    println!("seed {seed:#x}");
    let mut random = Random::new(seed);
    let (mut answers, mut changed, mut twice) = ([0; 13], 0, 0);
    let (mut by_proviso, mut different) = (0, 0);
    let mut truths = [0; 3];
    let rounds = 10_000;
    for round in 0..rounds {
        let parts = random_run(&mut random);
        let seen = run(&parts).unwrap_or_else(|_| {
            let small = shrink(parts, |parts| run(parts).is_err());
            let wrong = run(&small).unwrap_err();
            panic!(
                "seed {seed:#x}, round {round}: table {:?}, policy {:?}, log {:?}, calls {:?}: {wrong}",
                small[0], small[1], small[2], small[3]
            );
        });
        for (count, more) in answers.iter_mut().zip(seen.answers) {
            *count += more;
        }
        changed += usize::from(seen.changes > 0);
        twice += usize::from(seen.changes > 1);
        if seen.proviso {
            by_proviso += 1;
            for [truth, _] in seen.truths {
                truths[truth.map_or(2, usize::from)] += 1;
            }
        } else {
            different += usize::from(seen.truths.iter().any(|truths| truths[0] != truths[1]));
        }
    }
    println!("{rounds} runs, answers by number: {answers:?}");
    println!("{changed} change the policy, {twice} more than once");
    println!(
        "{by_proviso} meet the proviso; false, true, open: {truths:?}; {different} of the others change the truth"
    );
    assert!(answers[0] > 15_000 && answers[11] > 3_000 && answers[12] > 3_500);
    assert!(changed > 4_500 && twice > 300);
    assert!(by_proviso > 6_000 && truths.iter().all(|count| *count > 7_000));
    // The proviso is needed, so the comparison of truths can fail.
    assert!(different > 80);
}
