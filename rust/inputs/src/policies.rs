//! Random policies: accepted ones by construction, and near misses that slip here and there.

mod restrictions;

use crate::damage::boundary_word;
use crate::{Random, Recipe};

/// A random policy for a good table.
pub fn policy(random: &mut Random, table: &[i32], recipe: &Recipe) -> Vec<i32> {
    let mut maker = Maker::new(random, table, recipe);
    maker.formula(0, None, 0, recipe.depth);
    maker.words
}

/// An accepted policy of exactly so many words, at least 4: an all-of with many different children.
pub fn long_policy(random: &mut Random, table: &[i32], length: usize) -> Vec<i32> {
    let mut words = vec![6, 0];
    let mut children = 0;
    loop {
        let recipe = Recipe {
            nodes: random.pick(&[5, 10, 20, 40]),
            ..Recipe::good(random)
        };
        let mut maker = Maker::new(random, table, &recipe);
        maker.formula(1, Some(true), 0, recipe.depth);
        if words.len() + maker.words.len() + 2 > length {
            break;
        }
        words.extend(&maker.words);
        children += 1;
    }
    children += length - words.len();
    words.resize(length, 1);
    words[1] = children as i32;
    words
}

/// A set of variables, one bit each.
type Variables = u32;

fn variables(from: usize, to: usize) -> Variables {
    (1 << to) - (1 << from)
}

fn members(set: Variables) -> Vec<usize> {
    (0..32).filter(|variable| set >> variable & 1 == 1).collect()
}

/// Writes the words of a policy from front to back.
struct Maker<'a> {
    random: &'a mut Random,
    recipe: &'a Recipe,
    /// Arity and mask of inputs of each predicate.
    predicates: Vec<(usize, i32)>,
    /// The greatest number of arguments that an atom can bind.
    most_outputs: usize,
    nodes_left: usize,
    words: Vec<i32>,
}

impl<'a> Maker<'a> {
    fn new(random: &'a mut Random, table: &[i32], recipe: &'a Recipe) -> Self {
        let predicates: Vec<_> = table.chunks(3).map(|record| (record[0] as usize, record[1])).collect();
        Maker {
            random,
            recipe,
            most_outputs: predicates
                .iter()
                .map(|predicate| outputs(*predicate))
                .max()
                .unwrap_or(0),
            predicates,
            nodes_left: recipe.nodes,
            words: Vec::new(),
        }
    }

    /// Whether to go wrong here.
    fn slip(&mut self) -> bool {
        self.recipe.slips.is_some_and(|slips| self.random.once_in(slips))
    }

    /// Whether to leave the mode rule aside here.
    fn mode_slip(&mut self) -> bool {
        self.recipe.mode_slips.is_some_and(|slips| self.random.once_in(slips)) || self.slip()
    }

    /// The levels left below a node of level `above`.
    fn levels_below(&self, above: usize) -> usize {
        self.recipe.most_levels.saturating_sub(above)
    }

    /// A number as a constant or in an excluded tuple.
    fn value(&mut self) -> i32 {
        match self.recipe.values {
            Some(values) => self.random.below(values) as i32,
            None => boundary_word(self.random),
        }
    }

    /// Writes a formula below a node of level `above`, with a branch down to level `depth`.
    fn formula(&mut self, above: usize, under: Option<bool>, scope: usize, depth: usize) {
        self.nodes_left = self.nodes_left.saturating_sub(1);
        if self.slip() {
            return self.wrong_node();
        }
        let levels = self.levels_below(above);
        let all = self.random.once_in(2);
        let cost = if under == Some(all) { 1 } else { 2 };
        let quantifier_fits = scope < self.recipe.most_variables && self.most_outputs > 0 && levels > cost;
        let go_on = depth > above + 1 || (self.nodes_left > 0 && !self.random.once_in(3));
        if go_on && quantifier_fits && self.random.once_in(2) {
            self.quantifier(above + cost, all, scope, depth);
        } else if go_on && levels > 1 {
            let children = self.join(all);
            let deep = self.random.below(children);
            for child in 0..children {
                let depth = if child == deep { depth } else { 0 };
                self.formula(above + 1, Some(all), scope, depth);
            }
        } else {
            self.leaf(scope);
        }
    }

    /// Writes the header of a join and returns the number of children to follow.
    fn join(&mut self, all: bool) -> usize {
        let children = self.random.between(2, 4);
        let mut announced = children as i32;
        if self.slip() {
            announced = self.random.pick(&[announced + 1, announced - 1, 1, 0, -1, i32::MAX]);
        }
        self.words.extend([if all { 6 } else { 7 }, announced]);
        children
    }

    /// Writes a quantifier of level `level`.
    fn quantifier(&mut self, level: usize, all: bool, scope: usize, depth: usize) {
        let levels = self.levels_below(level);
        let most = (self.recipe.most_variables - scope).min(4);
        let mut count = self.random.between(1, most);
        if !self.can_bind(count, levels) {
            count = 1;
        }
        let tuples = if self.random.once_in(2) {
            0
        } else {
            self.random.below(4)
        };
        let (mut announced_count, mut announced_tuples) = (count as i32, tuples as i32);
        if self.slip() {
            announced_count = self.random.pick(&[0, 5, -1, count as i32 + 1, count as i32 - 1]);
        }
        if self.slip() {
            announced_tuples = self.random.pick(&[-1, i32::MAX, 1 << 30, tuples as i32 + 1]);
        }
        self.words.push(if all { 8 } else { 9 });
        self.words.extend([announced_count, announced_tuples]);
        for _ in 0..tuples * count {
            let value = self.value();
            self.words.push(value);
        }
        let inner = scope + count;
        let mut wanted = variables(scope, inner);
        if self.mode_slip() {
            wanted &= wanted - 1;
        }
        let deep_restriction = self.random.once_in(3);
        let (restriction, body) = if deep_restriction { (depth, 0) } else { (0, depth) };
        self.restriction(level, inner, variables(0, scope), wanted, restriction);
        self.formula(level, None, inner, body);
    }

    /// Writes a plain node or an atom with any variables in scope.
    fn leaf(&mut self, scope: usize) {
        let all = variables(0, scope);
        let atoms_only = self.recipe.split && !self.random.once_in(5);
        let kind = if atoms_only { 1 } else { self.random.below(7) };
        match kind {
            0 => self.words.push(self.random.below(2) as i32),
            1..=4 => {
                let any: Vec<usize> = (0..self.predicates.len()).collect();
                let predicate = self.predicate(&any, false);
                let tag = self.random.between(2, 3) as i32;
                self.atom(tag, predicate, scope, all, 0);
            }
            _ => self.time(scope, all),
        }
    }

    /// One of the fitting predicates, mostly of the first or the second half if the recipe splits them.
    fn predicate(&mut self, fitting: &[usize], first: bool) -> usize {
        if self.recipe.split && !self.random.once_in(5) {
            let half = self.predicates.len() / 2;
            let of_half = fitting.iter().copied().filter(|number| (*number <= half) == first);
            let of_half: Vec<usize> = of_half.collect();
            if !of_half.is_empty() {
                return self.random.pick(&of_half);
            }
        }
        self.random.pick(fitting)
    }

    /// Writes an atom. Inputs, and all arguments of tag 3, are variables of `bound` or constants. Returns its variables.
    fn atom(&mut self, tag: i32, predicate: usize, scope: usize, bound: Variables, wanted: Variables) -> Variables {
        let (arity, mask) = self.predicates[predicate];
        let mut wanted = members(wanted);
        let mut outputs: Vec<usize> = (0..arity).filter(|place| mask >> place & 1 == 0).collect();
        self.random.shuffle(&mut outputs);
        let mut number = predicate as i32;
        let mut announced = arity as i32;
        if self.slip() {
            number = self
                .random
                .pick(&[-1, self.predicates.len() as i32, i32::MAX, i32::MIN]);
        }
        if self.slip() {
            announced = self.random.pick(&[0, 7, -1, announced + 1, announced - 1]);
        }
        self.words.extend([tag, number, announced]);
        let mut used = 0;
        for place in 0..arity {
            let is_output = tag == 2 && outputs.contains(&place);
            let reserved = outputs.iter().take(wanted.len()).any(|output| *output == place);
            if is_output && reserved {
                outputs.retain(|output| *output != place);
                let variable = wanted.pop().expect("as many as reserved places");
                self.words.extend([1, variable as i32]);
                used |= 1 << variable;
            } else {
                let allowed = if is_output { variables(0, scope) } else { bound };
                used |= self.term(scope, allowed);
            }
        }
        used
    }

    /// Writes tag 4 or 5.
    fn time(&mut self, scope: usize, bound: Variables) {
        let tag = self.random.between(4, 5) as i32;
        let offset = self.value();
        self.words.extend([tag, offset]);
        self.term(scope, bound);
        self.term(scope, bound);
    }

    /// Writes a constant or one of the allowed variables, and returns it as a set.
    fn term(&mut self, scope: usize, allowed: Variables) -> Variables {
        if self.slip() {
            let value = self.value();
            let scope = scope as i32;
            let any = self.random.below(scope as usize + 1) as i32;
            let wrong = [
                (2, 0),
                (-1, 0),
                (1, scope),
                (1, -1),
                (1, 16),
                (1, i32::MIN),
                (1, any),
                (1, any),
            ];
            let (kind, word) = self.random.pick(&wrong);
            self.words.extend([kind, if kind == 1 { word } else { value }]);
            return 0;
        }
        let any = variables(0, scope);
        let allowed = members(if self.mode_slip() { any } else { allowed });
        if allowed.is_empty() || self.random.once_in(3) {
            let value = self.value();
            self.words.extend([0, value]);
            return 0;
        }
        let variable = self.random.pick(&allowed);
        self.words.extend([1, variable as i32]);
        1 << variable
    }

    /// Writes a node with a tag that is wrong, at least at some places, or none at all.
    fn wrong_node(&mut self) {
        let tags: [&[i32]; 8] = [&[10], &[11], &[-1], &[8, 1, 0], &[9, 2, 0], &[10, 1], &[], &[1, 1]];
        let words = self.random.pick(&tags);
        self.words.extend(words);
    }
}

/// The number of arguments that are not inputs.
fn outputs((arity, mask): (usize, i32)) -> usize {
    arity - mask.count_ones() as usize
}
