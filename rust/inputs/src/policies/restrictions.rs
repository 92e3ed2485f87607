//! Random restrictions that pass the mode rule, unless they slip.

use super::{members, outputs, variables, Maker, Variables};

impl Maker<'_> {
    /// Whether a restriction with so many levels can bind so many variables: by one atom, or by an all-of of atoms.
    pub(super) fn can_bind(&self, count: usize, levels: usize) -> bool {
        match levels {
            0 => false,
            1 => count <= self.most_outputs,
            _ => count == 0 || self.most_outputs > 0,
        }
    }

    /// Writes a restriction that binds the wanted variables, given the bound ones. Returns all that are bound then.
    pub(super) fn restriction(
        &mut self,
        above: usize,
        scope: usize,
        bound: Variables,
        wanted: Variables,
        depth: usize,
    ) -> Variables {
        self.nodes_left = self.nodes_left.saturating_sub(1);
        if self.slip() {
            self.wrong_node();
            return bound;
        }
        let levels = self.levels_below(above);
        let count = wanted.count_ones() as usize;
        let can_be_leaf = self.can_bind(count, 1);
        let rarely = self.recipe.split && self.random.once_in(2);
        let go_on = depth > above + 1 || (self.nodes_left > 0 && !rarely && !self.random.once_in(2));
        if levels < 2 || (can_be_leaf && !go_on) {
            return self.restriction_leaf(scope, bound, wanted);
        }
        // Any-of and "some" take more nodes, so they end with the nodes.
        let choice = if go_on { self.random.below(3) } else { 2 };
        let any_of_fits = self.can_bind(count, levels - 1);
        let some_fits = scope < self.recipe.most_variables && self.can_bind(count + 1, levels - 1);
        if choice == 0 && any_of_fits {
            self.any_of(above + 1, scope, bound, wanted, depth)
        } else if choice == 1 && some_fits {
            let variable = variables(scope, scope + 1);
            self.words.push(10);
            let mut inner = wanted | variable;
            if self.mode_slip() {
                inner = wanted;
            }
            self.restriction(above + 1, scope + 1, bound, inner, depth) & !variable
        } else {
            self.all_of(above + 1, scope, bound, wanted, depth)
        }
    }

    /// Writes an all-of of level `level` whose children bind the wanted variables one after the other.
    fn all_of(&mut self, level: usize, scope: usize, bound: Variables, wanted: Variables, depth: usize) -> Variables {
        let children = self.join(true);
        let mut shares: Vec<Variables> = vec![0; children];
        for variable in members(wanted) {
            let child = self.random.below(children);
            shares[child] |= 1 << variable;
        }
        // On the last level an atom can bind only so many.
        let levels = self.levels_below(level);
        let mut left_over = Vec::new();
        for share in &mut shares {
            while !self.can_bind(share.count_ones() as usize, levels) {
                left_over.push(*share & share.wrapping_neg());
                *share &= *share - 1;
            }
        }
        let header = self.words.len() - 1;
        self.words[header] = self.words[header].wrapping_add(left_over.len() as i32);
        shares.extend(left_over);
        let deep = self.random.below(shares.len());
        shares.into_iter().enumerate().fold(bound, |bound, (child, share)| {
            let depth = if child == deep { depth } else { 0 };
            self.restriction(level, scope, bound, share, depth)
        })
    }

    /// Writes an any-of of level `level` whose branches each bind the wanted variables.
    fn any_of(&mut self, level: usize, scope: usize, bound: Variables, wanted: Variables, depth: usize) -> Variables {
        let children = self.join(false);
        let deep = self.random.below(children);
        let mut common = Variables::MAX;
        for child in 0..children {
            let depth = if child == deep { depth } else { 0 };
            common &= self.restriction(level, scope, bound, wanted, depth);
        }
        common
    }

    /// Writes a plain node or an atom that binds the wanted variables and needs the bound ones only.
    fn restriction_leaf(&mut self, scope: usize, bound: Variables, wanted: Variables) -> Variables {
        let count = wanted.count_ones() as usize;
        let kind = if count > 0 { 2 } else { self.random.below(6) };
        match kind {
            0 => {
                let is_true = self.random.once_in(2) || (self.recipe.split && self.random.once_in(2));
                self.words.push(i32::from(is_true));
            }
            1 => self.time(scope, bound),
            5 => {
                let predicate = self.random.below(self.predicates.len());
                self.atom(3, predicate, scope, bound, 0);
            }
            _ => {
                let fitting: Vec<usize> = (0..self.predicates.len())
                    .filter(|number| outputs(self.predicates[*number]) >= count)
                    .collect();
                let predicate = self.predicate(&fitting, true);
                return bound | self.atom(2, predicate, scope, bound, wanted);
            }
        }
        bound
    }
}
