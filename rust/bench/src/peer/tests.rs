//! The reduction answers as the reference does, with the same words in the buffer and in scratch.

use inputs::{damage, damaged_log, damaged_table, good_log, good_table, policy, small_table, Random, Recipe};
use reference::{Answer, PLACE};

use super::reduce;
use crate::answer;

/// A table, a policy and a log.
struct Input {
    table: Vec<i32>,
    policy: Vec<i32>,
    log: Vec<i32>,
}

impl Input {
    /// An input that is accepted more often than not.
    fn random(random: &mut Random) -> Self {
        let table = if random.once_in(2) {
            small_table(random)
        } else {
            good_table(random)
        };
        // A variable has at most three values, so that few variables have few instances. A near miss may have many
        // variables, and then the log has a row at most.
        let (recipe, rows) = match random.below(4) {
            0 => (Recipe::small(random), random.pick(&[0, 3, 10, 30])),
            1 => (Recipe::near_miss(random), 1),
            _ => {
                let good = Recipe::good(random);
                let recipe = Recipe {
                    most_variables: random.between(1, 6),
                    values: Some(3),
                    ..good
                };
                (recipe, random.pick(&[0, 3, 10, 30]))
            }
        };
        let mut policy = policy(random, &table, &recipe);
        if random.once_in(20) {
            damage(random, &mut policy);
        }
        let log = if random.once_in(8) {
            damaged_log(random, &table, rows)
        } else {
            good_log(random, &table, rows, 3)
        };
        let table = if random.once_in(40) {
            damaged_table(random)
        } else {
            table
        };
        Input { table, policy, log }
    }

    /// Both answers, with scratch and a buffer of so many words.
    fn compare(&self, scratch: usize, room: usize) -> Answer {
        let Input { table, policy, log } = self;
        let lend = |words| vec![-1; words];
        let (mut scratch, mut buffer) = (lend(scratch), lend(room));
        let result = answer(reduce(table, policy, log, &mut scratch, &mut buffer));
        let (mut other_scratch, mut other_buffer) = (lend(scratch.len()), lend(room));
        let expected = reference::reduce(table, policy, log, &mut other_scratch, &mut other_buffer);
        let name = format!(
            "{} of scratch, {room} of buffer: {table:?} {policy:?} {log:?}",
            scratch.len()
        );
        assert_eq!(result, expected, "{name}");
        assert_eq!(buffer, other_buffer, "{name}");
        assert_eq!(scratch, other_scratch, "{name}");
        expected
    }
}

#[test]
fn answers_as_the_reference_does() {
    let random = &mut Random::new(0x4EDC);
    let (mut seen, mut exact) = ([0; 13], 0);
    for _ in 0..20_000 {
        let input = Input::random(random);
        let answer = input.compare(500 * PLACE, 10_000);
        seen[answer.number as usize] += 1;
        if answer.number != 0 {
            continue;
        }
        exact += 1;
        let places = reference::places(&input.table, &input.policy, &input.log).expect("the input is accepted");
        let (scratch, room) = (PLACE * places, answer.count);
        assert_eq!(input.compare(scratch, room), answer);
        assert_eq!(input.compare(scratch + 1, room + 1), answer);
        assert_eq!(input.compare(scratch, room - 1), Answer::refused(12, 0));
        if scratch > 0 {
            assert_eq!(input.compare(scratch - 1, room), Answer::refused(11, 0));
            assert_eq!(input.compare(scratch - 1, room - 1), Answer::refused(11, 0));
        }
        let (less_scratch, less_room) = (random.below(scratch + 1), random.below(room + 1));
        seen[input.compare(less_scratch, less_room).number as usize] += 1;
    }
    println!("{exact} with exact scratch and buffer; answers by number: {seen:?}");
    for (number, seen) in seen.into_iter().enumerate() {
        assert!(seen > 5, "only {seen} of {number}");
    }
}

#[test]
fn takes_so_many_words_and_no_more() {
    let table = [1, 0, 0];
    let atoms = |n: usize| [vec![6, n as i32], [2, 0, 1, 0, 7].repeat(n)].concat();
    let input = |policy| Input {
        table: table.to_vec(),
        policy,
        log: vec![0, 1, 8, 0, 0, 0, 0, 0],
    };
    let most = (super::MOST_WORDS - 2) / 5;
    assert_eq!(input(atoms(most)).compare(0, 1 << 21), Answer::accepted(5 * most + 2));
    assert_eq!(input(atoms(most + 1)).compare(0, 1 << 21), Answer::refused(2, 0));
    assert_eq!(input(Vec::new()).compare(0, 0), Answer::refused(2, 0));
}
