//! Random runs, judged by a plain evaluation of truth that tries all values of a universe.

use inputs::{extension, good_log, good_table, policy, small_table, Random, Recipe};
use reference::truth::Structure;
use reference::{check_policy, read_table, reduce, Answer, Log, Policy, Predicate};

/// Constants and rows use 0 to 2; 3 is a value that no row has, in the log that is reduced over.
const VALUES: usize = 3;
const UNIVERSE: [i32; 4] = [0, 1, 2, 3];

fn structure<'a>(log: &'a Log<'a>) -> Structure<'a> {
    let universe = &UNIVERSE;
    Structure { log, universe }
}

/// Puts the true rows of complete predicates first and tells how many these are: a log extends its front parts if they
/// have these rows, since without its row such an atom is false.
fn settled_first(predicates: &[Predicate], log: &[i32]) -> (usize, Vec<i32>) {
    let is_settled = |row: &&[i32]| row[1] == 1 && predicates[row[0] as usize].complete;
    let (settled, others): (Vec<&[i32]>, Vec<&[i32]>) = log.chunks(8).partition(is_settled);
    (settled.len(), [settled, others].concat().concat())
}

/// A table, a log whose first `least` rows every front part has, and a policy.
struct Case {
    table: Vec<i32>,
    predicates: Vec<Predicate>,
    least: usize,
    log: Vec<i32>,
    policy: Vec<i32>,
}

impl Case {
    fn new(random: &mut Random) -> Self {
        let table = small_table(random);
        let predicates = read_table(&table).unwrap();
        let (least, log) = settled_first(&predicates, &good_log(random, &table, 8, VALUES));
        let recipe = Recipe::small(random);
        let policy = policy(random, &table, &recipe);
        Case {
            table,
            predicates,
            least,
            log,
            policy,
        }
    }

    /// The policy held at the end of a run: front parts in any order of lengths, with more or less scratch and buffer,
    /// and at last the whole log with enough of both.
    fn run(&self, random: &mut Random) -> Vec<i32> {
        let mut held = self.policy.clone();
        for _ in 0..2 {
            let rows = random.between(self.least, self.log.len() / 8);
            let scratch = 17 * random.pick(&[0, 2, 5, 1_000]);
            let buffer = random.pick(&[1, 50, 100_000]);
            let answer = self.call(&mut held, rows, scratch, buffer);
            assert!(matches!(answer.number, 0 | 11 | 12), "{answer:?}");
        }
        let answer = self.call(&mut held, self.log.len() / 8, 17 * 20_000, 1_048_576);
        assert_eq!(answer.number, 0);
        held
    }

    /// One call over the first rows, which changes the policy held if it is accepted.
    fn call(&self, held: &mut Vec<i32>, rows: usize, scratch: usize, buffer: usize) -> Answer {
        let mut scratch = vec![1; scratch];
        let mut buffer = vec![-1; buffer];
        let answer = reduce(&self.table, held, &self.log[..8 * rows], &mut scratch, &mut buffer);
        assert!(scratch.iter().all(|word| *word == 0));
        assert!(buffer[answer.count..].iter().all(|word| *word == 0));
        if answer.number == 0 {
            *held = buffer[..answer.count].to_vec();
            assert_eq!(check_policy(&self.table, held).number, 0);
        }
        answer
    }

    /// Checks a policy held at the end: the same truth in extensions of the whole log, and no work left in it.
    /// Returns the truths.
    fn judge(&self, random: &mut Random, held: &[i32]) -> Vec<Option<bool>> {
        let before = Policy::read(&self.predicates, &self.policy).unwrap().root;
        let after = Policy::read(&self.predicates, held).unwrap().root;
        let whole = Log::read(&self.predicates, &self.log).unwrap();
        assert!(structure(&whole).is_settled(&after));
        let mut again = held.to_vec();
        self.call(&mut again, self.log.len() / 8, 17 * 20_000, held.len());
        assert_eq!(again, held);

        let mut extensions = vec![self.log.clone()];
        extensions.extend((0..3).map(|_| extension(random, &self.table, &self.log, &UNIVERSE, 30)));
        let judge = |words: &Vec<i32>| {
            let extended = Log::read(&self.predicates, words).unwrap();
            let truths = [&before, &after].map(|formula| structure(&extended).truth(formula));
            assert_eq!(truths[0], truths[1], "over {words:?}");
            truths[0]
        };
        extensions.iter().map(judge).collect()
    }
}

#[test]
fn runs_keep_the_truth() {
    let seed = 0x5EED_0001;
    println!("seed {seed:#x}");
    let mut random = Random::new(seed);
    let mut changed = 0;
    let mut outcomes = [0; 3];
    for round in 0..3000 {
        let case = Case::new(&mut random);
        println!("round {round}: {:?}, {:?}, {:?}", case.table, case.policy, case.log);
        let held = case.run(&mut random);
        for truth in case.judge(&mut random, &held) {
            outcomes[truth.map_or(2, usize::from)] += 1;
        }
        changed += usize::from(held != case.policy);
    }
    println!("{changed} policies changed; false, true, open: {outcomes:?}");
    assert!(
        changed > 1000 && outcomes.iter().all(|count| *count > 300),
        "{changed} {outcomes:?}"
    );
}

#[test]
fn made_policies_are_accepted() {
    let seed = 0x5EED_0002;
    println!("seed {seed:#x}");
    let mut random = Random::new(seed);
    let mut deepest = 0;
    for round in 0..5000 {
        let table = good_table(&mut random);
        let recipe = Recipe::good(&mut random);
        let made = policy(&mut random, &table, &recipe);
        let answer = check_policy(&table, &made);
        assert_eq!(answer.number, 0, "round {round}: {answer:?} {table:?} {made:?}");
        deepest = deepest.max(answer.count);
    }
    assert_eq!(deepest, 64);
}
