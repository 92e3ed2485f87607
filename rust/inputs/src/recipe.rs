//! What kinds of policies are made.

use crate::Random;

/// What kind of policy to make.
#[derive(Clone, Debug)]
pub struct Recipe {
    /// About how many nodes it has.
    pub nodes: usize,
    /// A level that some branch of it should reach.
    pub depth: usize,
    /// The greatest level; 64 for an accepted policy.
    pub most_levels: usize,
    /// The greatest number of variables in scope; 16 for an accepted policy.
    pub most_variables: usize,
    /// Constants and excluded numbers are 0 to `values` - 1; if `None`, any words.
    pub values: Option<usize>,
    /// Restrictions mostly speak of the first half of the predicates, bodies of the other one, and few leaves are plain
    /// nodes or comparisons. Over a log that mostly knows the first half, quantifiers then have instances, and their
    /// bodies stay open.
    pub split: bool,
    /// On average one choice in so many goes wrong; if `None`, none does.
    pub slips: Option<usize>,
    /// On average one choice in so many does not care for the mode rule; if `None`, all do.
    pub mode_slips: Option<usize>,
}

impl Recipe {
    /// Accepted policies of all sizes, some of them deep.
    pub fn good(random: &mut Random) -> Self {
        let nodes = random.pick(&[1, 4, 10, 20, 40, 80]);
        let depth = random.pick(&[0, 0, 0, 6, 20, 60, 63, 64]);
        Recipe {
            nodes,
            depth,
            most_levels: 64,
            most_variables: 16,
            values: random.pick(&[None, Some(3)]),
            split: false,
            slips: None,
            mode_slips: None,
        }
    }

    /// Policies that are just not accepted, or just so.
    pub fn near_miss(random: &mut Random) -> Self {
        let good = Recipe::good(random);
        match random.below(8) {
            0 => Recipe {
                depth: random.between(60, 66),
                most_levels: 66,
                ..good
            },
            1 => Recipe {
                nodes: 60,
                depth: 50,
                most_variables: 18,
                ..good
            },
            2..=3 => Recipe {
                nodes: random.between(5, 80),
                mode_slips: Some(random.pick(&[5, 20, 50, 100])),
                ..good
            },
            _ => Recipe {
                slips: Some(random.pick(&[20, 50, 100, 200])),
                ..good
            },
        }
    }

    /// Accepted policies of some size, with quantifiers in each other that have instances.
    pub fn nested(random: &mut Random) -> Self {
        Recipe {
            nodes: random.between(6, 30),
            depth: random.pick(&[3, 6, 9, 12]),
            most_variables: random.between(2, 7),
            values: Some(random.between(2, 3)),
            split: true,
            ..Recipe::small(random)
        }
    }

    /// The same kind of policy, with constants and excluded numbers from 0 to `values` - 1.
    pub fn with_values(self, values: usize) -> Self {
        let values = Some(values);
        Recipe { values, ..self }
    }

    /// Small accepted policies whose truth can be found by trying all values.
    pub fn small(random: &mut Random) -> Self {
        Recipe {
            nodes: random.between(3, 16),
            depth: 0,
            most_levels: 64,
            most_variables: random.between(1, 4),
            values: Some(3),
            split: false,
            slips: None,
            mode_slips: None,
        }
    }
}
