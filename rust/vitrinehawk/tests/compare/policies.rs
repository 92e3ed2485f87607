//! Policy checks and duals.

use inputs::{boundary_word, damage, damaged_table, good_table, noise, Recipe};
use reference::Answer;

use crate::comparison::Comparison;

#[test]
fn good_policies() {
    let mut comparison = Comparison::new(0xA001);
    let mut levels = [0; 65];
    for _ in 0..10_000 {
        let (table, policy) = comparison.made(Recipe::good);
        let answer = comparison.policy(&table, &policy);
        assert_eq!(answer.number, 0, "{table:?} {policy:?}");
        levels[answer.count] += 1;
    }
    assert!(levels[1] > 100 && levels[63] > 100 && levels[64] > 100, "{levels:?}");
}

#[test]
fn near_misses() {
    let mut comparison = Comparison::new(0xA002);
    for _ in 0..40_000 {
        let (table, policy) = comparison.made(Recipe::near_miss);
        comparison.policy_and_dual(&table, &policy);
    }
    comparison.has_seen(&[0, 3, 4, 5, 6, 7], 500);
}

#[test]
fn damaged_policies() {
    let mut comparison = Comparison::new(0xA003);
    for _ in 0..2_000 {
        let (table, policy) = comparison.made(Recipe::good);
        for _ in 0..40 {
            let mut damaged = policy.clone();
            for _ in 0..comparison.random.between(1, 3) {
                damage(&mut comparison.random, &mut damaged);
            }
            comparison.policy_and_dual(&table, &damaged);
        }
    }
    comparison.has_seen(&[0, 2, 3, 5, 6, 7], 200);
}

#[test]
fn several_questions_at_one_node() {
    let mut comparison = Comparison::new(0xA00D);
    let mut refused = 0;
    while refused < 2_000 {
        let (table, policy) = comparison.made(Recipe::near_miss);
        let answer = comparison.policy(&table, &policy);
        if !matches!(answer.number, 4..=7) {
            continue;
        }
        // The node is refused already: cut it off, or change its words.
        refused += 1;
        let end = policy.len().min(answer.place + 8);
        for place in answer.place..end {
            comparison.policy(&table, &policy[..place]);
            let mut damaged = policy.clone();
            for _ in 0..3 {
                damaged[place] = boundary_word(&mut comparison.random);
                comparison.policy(&table, &damaged);
            }
        }
    }
    comparison.has_seen(&[3, 4, 5, 6, 7], 500);
}

#[test]
fn each_word_at_a_boundary() {
    let mut comparison = Comparison::new(0xA004);
    for _ in 0..300 {
        let (table, policy) = comparison.made(Recipe::good);
        for place in 0..policy.len().min(300) {
            let mut damaged = policy.clone();
            for _ in 0..4 {
                damaged[place] = boundary_word(&mut comparison.random);
                comparison.policy(&table, &damaged);
            }
        }
    }
    comparison.has_seen(&[0, 3, 5, 6, 7], 200);
}

#[test]
fn cut_off_policies() {
    let mut comparison = Comparison::new(0xA005);
    for round in 0..400 {
        let recipe = if round % 4 == 0 {
            Recipe::near_miss
        } else {
            Recipe::good
        };
        let (table, policy) = comparison.made(recipe);
        for length in 0..policy.len().min(500) {
            comparison.policy_and_dual(&table, &policy[..length]);
        }
        let mut longer = policy;
        for _ in 0..5 {
            longer.push(boundary_word(&mut comparison.random));
            comparison.policy_and_dual(&table, &longer);
        }
    }
    comparison.has_seen(&[2, 3], 200);
}

#[test]
fn words_without_order() {
    let mut comparison = Comparison::new(0xA006);
    for _ in 0..100_000 {
        let table = good_table(&mut comparison.random);
        let words = noise(&mut comparison.random, 30);
        comparison.policy(&table, &words);
        let words = noise(&mut comparison.random, 30);
        comparison.log(&table, &words);
    }
    comparison.has_seen(&[0, 2, 3, 5, 6, 8, 9], 50);
}

#[test]
fn duals() {
    let mut comparison = Comparison::new(0xA007);
    for _ in 0..4_000 {
        let (table, policy) = comparison.made(Recipe::good);
        let length = policy.len();
        for room in [length - 1, length, length + 1, length + 40] {
            let answer = comparison.dual(&table, &policy, room);
            let expected = if room < length {
                Answer::refused(12, 0)
            } else {
                Answer::accepted(length)
            };
            assert_eq!(answer, expected);
        }
    }
    comparison.has_seen(&[0, 12], 4_000);
}

#[test]
fn duals_of_refused_policies() {
    let mut comparison = Comparison::new(0xA008);
    for _ in 0..10_000 {
        let (table, mut policy) = comparison.made(Recipe::near_miss);
        if comparison.random.once_in(2) {
            damage(&mut comparison.random, &mut policy);
        }
        // Question 12 comes last: a short buffer makes no difference to the others.
        let room = comparison.random.pick(&[0, 1, policy.len()]);
        comparison.dual(&table, &policy, room);
    }
    comparison.has_seen(&[0, 3, 5, 6, 7, 12], 100);
}

#[test]
fn tables() {
    let mut comparison = Comparison::new(0xA009);
    for _ in 0..40_000 {
        let table = damaged_table(&mut comparison.random);
        let words = noise(&mut comparison.random, 8);
        comparison.log(&table, &[]);
        comparison.log(&table, &words);
        comparison.policy_and_dual(&table, &words);
        comparison.policy(&table, &[1]);
    }
    comparison.has_seen(&[0, 1], 1_000);
}
