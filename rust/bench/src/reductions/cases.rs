//! The inputs of the reductions.

use inputs::Random;

use crate::hospital::{self, hospital_log, hospital_policy};
use crate::logs::TABLE;
use crate::words::{all_of, constant, fails, holds, join};

/// The greatest number of words of a policy.
const MOST_WORDS: usize = 1_048_576;

/// The predicate send, in both tables.
const SEND: i32 = 0;

/// For all senders, receivers and times: if sent, then the receiver believes.
const EVERY_RECEIVER_BELIEVES: [i32; 17] = [8, 3, 0, 2, 0, 3, 1, 0, 1, 1, 1, 2, 2, 2, 1, 1, 1];

/// An input of a reduction.
#[derive(Clone)]
pub struct Case {
    pub name: String,
    pub meaning: &'static str,
    pub table: Vec<i32>,
    pub policy: Vec<i32>,
    pub log: Vec<i32>,
    /// Whether the policy is about disclosures.
    pub about_disclosures: bool,
    /// How many inputs before this one stands the same with a quarter of the rows.
    pub smaller: Option<usize>,
}

impl Case {
    /// The number of disclosures: the true rows of send, if that is what the policy is about.
    pub fn disclosures(&self) -> Option<usize> {
        let rows = self.log.as_chunks::<8>().0.iter();
        let sends = rows.filter(|row| row[..2] == [SEND, 1]).count();
        self.about_disclosures.then_some(sends)
    }

    /// The residual, by the reference.
    pub fn residual(&self) -> Vec<i32> {
        let places = reference::places(&self.table, &self.policy, &self.log).expect("the input is accepted");
        let (mut scratch, mut buffer) = (vec![0; reference::PLACE * places], vec![0; MOST_WORDS]);
        let answer = reference::reduce(&self.table, &self.policy, &self.log, &mut scratch, &mut buffer);
        assert_eq!(answer.number, 0, "{}: the input is refused", self.name);
        buffer.truncate(answer.count);
        buffer
    }
}

/// All inputs.
pub fn cases() -> Vec<Case> {
    let mut cases = sends();
    cases.extend(norms());
    cases.push(ground_atoms());
    cases.extend(nested_joins());
    cases
}

/// F of document 01, over sends only; and what half of the sends leave of it, over all of them.
fn sends() -> Vec<Case> {
    let case = |(number, rows): (usize, i32)| Case {
        name: format!("reduce F, {rows} sends"),
        meaning:
            "for all that was sent, the receiver believes; every row is a send to one of 97 receivers, so that all are \
                  instances and none is decided",
        table: TABLE.to_vec(),
        policy: EVERY_RECEIVER_BELIEVES.to_vec(),
        log: (0..rows)
            .flat_map(|row| [SEND, 1, row % 61, row % 97, row, 0, 0, 0])
            .collect(),
        about_disclosures: true,
        smaller: (number > 0).then_some(1),
    };
    let mut cases: Vec<_> = [256, 1_024, 4_096].into_iter().enumerate().map(case).collect();
    let half = case((0, 2_048));
    cases.push(Case {
        name: "reduce the rest of F, 4096 sends".into(),
        meaning: "what the first 2,048 sends left of F, over all: half of the tuples are excluded",
        policy: half.residual(),
        ..case((0, 4_096))
    });
    cases
}

/// The hospital's policy, first over the first half of a log and then what is left of it over the whole log.
fn norms() -> Vec<Case> {
    let mut cases = Vec::new();
    for (number, rows) in [256, 1_024, 4_096].into_iter().enumerate() {
        let log = hospital_log(&mut Random::new(0x4057), rows);
        let half = Case {
            name: format!("reduce norms, half of {rows} rows"),
            meaning: "a policy shaped like HIPAA's norms, over the first half of a hospital's log",
            table: hospital::TABLE.to_vec(),
            policy: hospital_policy(),
            log: log[..log.len() / 2].to_vec(),
            about_disclosures: true,
            smaller: (number > 0).then_some(2),
        };
        let whole = Case {
            name: format!("reduce the rest, {rows} rows"),
            meaning: "what the half left of this policy, over the whole log",
            policy: half.residual(),
            log,
            ..half.clone()
        };
        cases.extend([half, whole]);
    }
    cases
}

/// A million words of ground atoms that are open or true.
fn ground_atoms() -> Case {
    let random = &mut Random::new(0x6407);
    let mut log: Vec<i32> = Vec::new();
    let mut children = Vec::new();
    let mut words = 2;
    loop {
        let predicate = random.below(TABLE.len() / 3);
        let [arity, _, complete] = TABLE.as_chunks().0[predicate];
        let arguments: Vec<_> = (0..arity).map(|_| constant(random.below(100) as i32)).collect();
        let make = if complete == 1 { fails } else { holds };
        let child = make(predicate as i32, &arguments);
        words += child.len();
        if words > MOST_WORDS {
            break;
        }
        // The first sixteen atoms are known.
        if children.len() < 16 {
            let row = log.len();
            log.extend([predicate as i32, 1 - complete]);
            log.extend(arguments.iter().map(|[_, value]| value));
            log.resize(row + 8, 0);
        }
        children.push(child);
    }
    Case {
        name: "reduce ground atoms, 16 rows".into(),
        meaning:
            "a million words: an all-of of ground atoms with one to six arguments; those of complete predicates are \
                  known, almost all others open",
        table: TABLE.to_vec(),
        policy: all_of(&children),
        log,
        about_disclosures: false,
        smaller: None,
    }
}

/// Joins nested to the last level, all their atoms open, over 16 rows.
fn nested_joins() -> Vec<Case> {
    let kinds = |other: i32| move |level: i32| if level % 2 == 0 { 6 } else { other };
    let wide = |other| nested(62, 512, &kinds(other));
    let case = |name: &str, meaning, policy| Case {
        name: format!("reduce {name}"),
        meaning,
        table: TABLE.to_vec(),
        policy,
        log: (0..16).flat_map(|row| [SEND, 1, row, row, row, 0, 0, 0]).collect(),
        about_disclosures: false,
        smaller: None,
    };
    let narrow: Vec<_> = (0..128).map(|_| nested(61, 2, &kinds(7))).collect();
    vec![
        case(
            "128 nests of 64 levels",
            "an all-of of 128 nests: any-of and all-of in turns, each with two open atoms and the next join",
            all_of(&narrow),
        ),
        case(
            "a wide nest of 64 levels",
            "all-of and any-of in turns, each with 512 open atoms and the next join",
            wide(7),
        ),
        case(
            "a wide nest of all-ofs",
            "the same with all-of at all levels, so that one all-of is left",
            wide(6),
        ),
    ]
}

/// A join with so many open atoms and, down to level 0, the next join.
fn nested(level: i32, atoms: i32, kind: &dyn Fn(i32) -> i32) -> Vec<i32> {
    let atom = |number| holds(SEND, &[constant(-1), constant(level), constant(number)]);
    let mut children: Vec<_> = (0..atoms).map(atom).collect();
    if level > 0 {
        children.push(nested(level - 1, atoms, kind));
    }
    join(kind(level), &children)
}
