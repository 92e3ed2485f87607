//! What happens in random reductions: whether the inputs of the other tests are worth trying.

use std::collections::{BTreeMap, BTreeSet};

use inputs::{Case, Random};
use reference::listing::list;
use reference::tree::{Formula, Quantifier, Restriction};
use reference::{read_table, Log, Policy};

use crate::reductions::need;

/// What is counted: a name, and the least share of the cases, one in so many.
const FEATURES: [(&str, usize); 16] = [
    ("residual is not plain", 3),
    ("residual is not plain and not the policy", 6),
    ("need is at least 3 places", 3),
    ("need is at least 20 places", 8),
    ("an instance", 4),
    ("three instances or more of one quantifier", 12),
    ("a quantifier's instance in another's", 14),
    ("an instance in one in one", 70),
    ("an instance by any-of", 9),
    ("an instance by some", 12),
    ("an instance where a dual or a comparison is true", 12),
    ("a listed tuple is excluded", 12),
    ("a tuple is listed twice", 12),
    ("instances, and no open predicate in the restriction", 10),
    ("instances, and an open predicate in the restriction", 6),
    ("a part's residual is longer than the whole one's", 20),
];

/// Which of the features a case has.
#[derive(Default)]
struct Found(BTreeSet<&'static str>);

impl Found {
    fn see(&mut self, feature: &'static str, seen: bool) {
        if seen {
            self.0.insert(feature);
        }
    }

    /// Goes through the quantifiers of a closed formula, and through their instances, below so many other instances.
    fn walk(&mut self, log: &Log, formula: &Formula, above: usize) {
        match formula {
            Formula::Plain(_) | Formula::Atom(_) => {}
            Formula::Join { children, .. } => children.iter().for_each(|child| self.walk(log, child, above)),
            Formula::Quantifier(quantifier) => self.quantifier(log, quantifier, above),
        }
    }

    fn quantifier(&mut self, log: &Log, quantifier: &Quantifier, above: usize) {
        let listed = list(log, quantifier, usize::MAX).expect("no limit");
        let excluded: Vec<&[i32]> = quantifier.excluded.chunks(quantifier.variables).collect();
        let mut distinct = listed.tuples.clone();
        distinct.sort_unstable();
        distinct.dedup();
        self.see(
            "a listed tuple is excluded",
            distinct.iter().any(|tuple| excluded.contains(&&tuple[..])),
        );
        self.see("a tuple is listed twice", distinct.len() < listed.tuples.len());
        if listed.instances.is_empty() {
            return;
        }
        let mut nodes = Vec::new();
        collect(&quantifier.restriction, &mut nodes);
        let has = |wanted: fn(&Restriction) -> bool| nodes.iter().any(|node| wanted(node));
        self.see("an instance", true);
        self.see("three instances or more of one quantifier", listed.instances.len() >= 3);
        self.see("a quantifier's instance in another's", above >= 1);
        self.see("an instance in one in one", above >= 2);
        self.see(
            "an instance by any-of",
            has(|node| matches!(node, Restriction::Join { all: false, .. })),
        );
        self.see(
            "an instance by some",
            has(|node| matches!(node, Restriction::Some { .. })),
        );
        self.see(
            "an instance where a dual or a comparison is true",
            has(|node| matches!(node, Restriction::Atom(atom) if !atom.binds())),
        );
        let open = nodes.iter().any(|node| is_open(log, node));
        self.see("instances, and no open predicate in the restriction", !open);
        self.see("instances, and an open predicate in the restriction", open);
        for instance in &listed.instances {
            self.walk(log, &quantifier.body.put_in(instance), above + 1);
        }
    }
}

fn collect<'a>(restriction: &'a Restriction, nodes: &mut Vec<&'a Restriction>) {
    nodes.push(restriction);
    match restriction {
        Restriction::Plain(_) | Restriction::Atom(_) => {}
        Restriction::Join { children, .. } => children.iter().for_each(|child| collect(child, nodes)),
        Restriction::Some { child, .. } => collect(child, nodes),
    }
}

fn is_open(log: &Log, node: &Restriction) -> bool {
    match node {
        Restriction::Atom(atom) => atom
            .predicate()
            .is_some_and(|predicate| !log.predicates()[predicate].complete),
        _ => false,
    }
}

/// Whether the residual of a child is longer than the one of its join.
fn has_long_part(case: &Case, root: &Formula, residual: &[i32]) -> bool {
    let Formula::Join { children, .. } = root else {
        return false;
    };
    let mut parts = children.iter().map(|child| Case {
        policy: child.to_words(),
        ..case.clone()
    });
    parts.any(|part| need(&part).is_some_and(|(_, part)| part.len() > residual.len()))
}

#[test]
fn random_reductions_are_worth_trying() {
    let mut random = Random::new(0xB001);
    let (cases, mut tried) = (4_000, 0);
    let mut counts: BTreeMap<&str, usize> = BTreeMap::new();
    for _ in 0..cases {
        let case = Case::good(&mut random);
        let Some((places, residual)) = need(&case) else {
            continue;
        };
        tried += 1;
        let predicates = read_table(&case.table).unwrap();
        let root = Policy::read(&predicates, &case.policy).unwrap().root;
        let mut found = Found::default();
        found.walk(&Log::read(&predicates, &case.log).unwrap(), &root, 0);
        found.see("residual is not plain", residual.len() > 1);
        found.see(
            "residual is not plain and not the policy",
            residual.len() > 1 && residual != case.policy,
        );
        found.see("need is at least 3 places", places >= 3);
        found.see("need is at least 20 places", places >= 20);
        found.see(
            "a part's residual is longer than the whole one's",
            has_long_part(&case, &root, &residual),
        );
        for feature in found.0 {
            *counts.entry(feature).or_default() += 1;
        }
    }
    println!("{tried} of {cases} cases are small enough");
    println!("{counts:#?}");
    assert!(tried > cases / 2);
    for (feature, one_in) in FEATURES {
        let count = counts.get(feature).copied().unwrap_or(0);
        assert!(count * one_in >= tried, "{feature}: {count} times only");
    }
}
