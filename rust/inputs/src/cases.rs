//! Random reductions: a table, a policy and a log that belong together.

use crate::damage::damage;
use crate::logs::{damaged_log, good_log, split_log};
use crate::policies::policy;
use crate::shrink::head;
use crate::tables::{damaged_table, good_table, small_table, table};
use crate::{Random, Recipe};

/// What a reduction is given.
#[derive(Clone, Debug)]
pub struct Case {
    /// A predicate table.
    pub table: Vec<i32>,
    /// A policy over it.
    pub policy: Vec<i32>,
    /// A log over it.
    pub log: Vec<i32>,
}

/// Constants, excluded numbers and arguments are 0 to 2, before they are spread.
const VALUES: usize = 3;

impl Case {
    /// A good case with few predicates, variables and values, so that truth can be found by trying all values.
    pub fn small(random: &mut Random) -> Self {
        let table = small_table(random);
        let recipe = Recipe {
            depth: random.pick(&[0, 3, 6]),
            split: random.once_in(2),
            ..Recipe::small(random)
        };
        Case::made(random, table, &recipe, 8)
    }

    /// A good case of any kind: small, with quantifiers in each other, with many arguments, or deep; some of them with
    /// numbers at the ends of their range.
    pub fn good(random: &mut Random) -> Self {
        let mut case = match random.below(8) {
            0 => Case::small(random),
            1..=5 => Case::nested(random),
            6 => {
                let table = good_table(random);
                let recipe = Recipe::good(random);
                Case::made(random, table, &recipe.with_values(2), 40)
            }
            _ => {
                let table = table(random, 2, 2);
                let recipe = Recipe::good(random);
                Case::made(random, table, &recipe.with_values(2), 6)
            }
        };
        if random.once_in(3) {
            case.spread(random);
        }
        case
    }

    /// Several quantifiers, often in each other, over a log that knows the atoms of their restrictions.
    fn nested(random: &mut Random) -> Self {
        let predicates = random.between(2, 5);
        let most_arguments = random.between(1, 3);
        let mut table = table(random, predicates, most_arguments);
        for record in table.chunks_mut(3).skip(predicates / 2 + 1) {
            record[2] &= i32::from(random.once_in(4));
        }
        let recipe = Recipe::nested(random);
        let rows = random.pick(&[6, 12, 20]);
        Case::made(random, table, &recipe, rows)
    }

    /// A case of which one part or more is changed, and likely to be bad.
    pub fn damaged(random: &mut Random) -> Self {
        let mut case = Case::good(random);
        let bad = random.pick(&[1, 2, 2, 2, 4, 4, 4, 3, 5, 6, 7]);
        if bad & 1 != 0 {
            let record = 3 * random.below(case.table.len() / 3);
            match random.below(4) {
                0 => case.table = damaged_table(random),
                1 => damage(random, &mut case.table),
                2 => case.table[record + 1] ^= 1 << random.below(case.table[record] as usize),
                _ => case.table[record + 2] ^= 1,
            }
        }
        if bad & 2 != 0 {
            for _ in 0..random.between(1, 2) {
                damage(random, &mut case.policy);
            }
        }
        if bad & 4 != 0 {
            let of_table = case.table.len() >= 3 && case.table.chunks(3).all(|record| (1..=6).contains(&record[0]));
            if of_table && random.once_in(2) {
                case.log = damaged_log(random, &case.table, 12);
            } else {
                damage(random, &mut case.log);
            }
        }
        case
    }

    fn made(random: &mut Random, table: Vec<i32>, recipe: &Recipe, most_rows: usize) -> Self {
        let policy = policy(random, &table, recipe);
        let log = if recipe.split { split_log } else { good_log };
        let log = log(random, &table, most_rows, recipe.values.unwrap_or(VALUES));
        Case { table, policy, log }
    }

    /// Puts other numbers for 0, 1 and 2, at or near the ends of their range.
    fn spread(&mut self, random: &mut Random) {
        let mut numbers = [i32::MIN, i32::MIN + 1, -1, 0, 1, i32::MAX - 1, i32::MAX];
        random.shuffle(&mut numbers);
        let spread = |word: &mut i32| {
            let value = usize::try_from(*word).ok().filter(|value| *value < VALUES);
            *word = value.map_or(*word, |value| numbers[value]);
        };
        for row in self.log.chunks_mut(8) {
            let arity = self.table[3 * row[0] as usize] as usize;
            row[2..2 + arity].iter_mut().for_each(spread);
        }
        let mut from = 0;
        while let Some((own, _)) = head(&self.policy[from..]) {
            let node = &mut self.policy[from..from + own];
            let (plain, terms) = match node[0] {
                2 | 3 => node.split_at_mut(3),
                4 | 5 => node.split_at_mut(2),
                _ => node.split_at_mut(own),
            };
            match plain[0] {
                4 | 5 => spread(&mut plain[1]),
                8 | 9 => plain[3..].iter_mut().for_each(spread),
                _ => {}
            }
            let constants = terms.chunks_mut(2).filter(|term| term[0] == 0);
            constants.for_each(|term| spread(&mut term[1]));
            from += own;
        }
    }
}
