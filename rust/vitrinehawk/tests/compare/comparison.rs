//! One call made by the library and by the reference.

use inputs::{good_table, policy, shrink, Case, Random, Recipe};
use reference::Answer;
use vitrinehawk::Refused;

/// What a call is given, in the order of its parameters; scratch and buffer as they are before the call. Bytes are
/// words here, so that texts are shrunk like all else.
type Parts = Vec<Vec<i32>>;

/// What can be seen of a call.
#[derive(Debug, PartialEq)]
struct Outcome {
    answer: Answer,
    /// Scratch and buffer, of which some calls have none.
    lent: Vec<Vec<i32>>,
}

/// Words or bytes with others around them that nobody may change.
struct Fenced<T>(Vec<T>);

const FENCE: usize = 20;

impl<T: Copy + PartialEq + From<u8>> Fenced<T> {
    fn new(inner: &[T]) -> Self {
        let fence = [T::from(0x5A); FENCE];
        Fenced([&fence, inner, &fence].concat())
    }

    fn inner(&mut self) -> &mut [T] {
        let end = self.0.len() - FENCE;
        &mut self.0[FENCE..end]
    }

    fn into_inner(mut self) -> Vec<T> {
        let inner = self.inner().to_vec();
        let fence = [T::from(0x5A); FENCE];
        assert!(
            self.0.starts_with(&fence) && self.0.ends_with(&fence),
            "words outside were changed"
        );
        inner
    }
}

/// Words that stand for bytes.
fn bytes(words: &[i32]) -> Vec<u8> {
    words.iter().map(|word| *word as u8).collect()
}

/// Words for bytes.
fn words(bytes: &[u8]) -> Vec<i32> {
    bytes.iter().map(|byte| i32::from(*byte)).collect()
}

#[derive(Clone, Copy, Debug)]
enum Call {
    CheckPolicy,
    CheckLog,
    Dual,
    Reduce,
    ReadLog,
    WriteLog,
    ReadPolicy,
    WritePolicy,
}

impl Call {
    /// The names of its parts.
    fn names(self) -> &'static [&'static str] {
        match self {
            Call::CheckPolicy => &["table", "policy"],
            Call::CheckLog => &["table", "log"],
            Call::Dual => &["table", "policy", "buffer"],
            Call::Reduce => &["table", "policy", "log", "scratch", "buffer"],
            Call::ReadLog => &["table", "text", "buffer"],
            Call::WriteLog => &["table", "log", "buffer"],
            Call::ReadPolicy => &["table", "text", "buffer"],
            Call::WritePolicy => &["table", "policy", "buffer"],
        }
    }

    /// Its parts, for a person.
    fn shown(self, parts: &[Vec<i32>]) -> String {
        let named = self.names().iter().zip(parts);
        let shown = named.map(|(name, part)| match *name {
            "text" => format!("text \"{}\"", bytes(part).escape_ascii()),
            _ => format!("{name} {part:?}"),
        });
        shown.collect::<Vec<_>>().join(", ")
    }

    fn by_library(self, parts: &[Vec<i32>]) -> Outcome {
        let (result, lent) = match (self, parts) {
            (Call::CheckPolicy, [table, policy]) => (vitrinehawk::check_policy(table, policy), vec![]),
            (Call::CheckLog, [table, log]) => (vitrinehawk::check_log(table, log), vec![]),
            (Call::Dual, [table, policy, buffer]) => {
                let mut buffer = Fenced::new(buffer);
                let result = vitrinehawk::dual(table, policy, buffer.inner());
                (result, vec![buffer.into_inner()])
            }
            (Call::Reduce, [table, policy, log, scratch, buffer]) => {
                let [mut scratch, mut buffer] = [scratch, buffer].map(|words| Fenced::new(words));
                let result = vitrinehawk::reduce(table, policy, log, scratch.inner(), buffer.inner());
                (result, vec![scratch.into_inner(), buffer.into_inner()])
            }
            (Call::ReadLog, [table, text, buffer]) => {
                let mut buffer = Fenced::new(buffer);
                let result = vitrinehawk::read_log(table, &bytes(text), buffer.inner());
                (result, vec![buffer.into_inner()])
            }
            (Call::WriteLog, [table, log, buffer]) => {
                let mut buffer = Fenced::new(&bytes(buffer));
                let result = vitrinehawk::write_log(table, log, buffer.inner());
                (result, vec![words(&buffer.into_inner())])
            }
            (Call::ReadPolicy, [table, text, buffer]) => {
                let mut buffer = Fenced::new(buffer);
                let result = vitrinehawk::read_policy(table, &bytes(text), buffer.inner());
                (result, vec![buffer.into_inner()])
            }
            (Call::WritePolicy, [table, policy, buffer]) => {
                let mut buffer = Fenced::new(&bytes(buffer));
                let result = vitrinehawk::write_policy(table, policy, buffer.inner());
                (result, vec![words(&buffer.into_inner())])
            }
            _ => panic!("a call has its own parts"),
        };
        let answer = match result {
            Ok(count) => Answer::accepted(count),
            Err(Refused { refusal, place }) => Answer::refused(refusal.number(), place),
        };
        Outcome { answer, lent }
    }

    fn by_reference(self, parts: &[Vec<i32>]) -> Outcome {
        let (answer, lent) = match (self, parts) {
            (Call::CheckPolicy, [table, policy]) => (reference::check_policy(table, policy), vec![]),
            (Call::CheckLog, [table, log]) => (reference::check_log(table, log), vec![]),
            (Call::Dual, [table, policy, buffer]) => {
                let mut buffer = buffer.clone();
                (reference::dual(table, policy, &mut buffer), vec![buffer])
            }
            (Call::Reduce, [table, policy, log, scratch, buffer]) => {
                let (mut scratch, mut buffer) = (scratch.clone(), buffer.clone());
                let answer = reference::reduce(table, policy, log, &mut scratch, &mut buffer);
                (answer, vec![scratch, buffer])
            }
            (Call::ReadLog, [table, text, buffer]) => {
                let mut buffer = buffer.clone();
                (reference::read_log(table, &bytes(text), &mut buffer), vec![buffer])
            }
            (Call::WriteLog, [table, log, buffer]) => {
                let mut buffer = bytes(buffer);
                (reference::write_log(table, log, &mut buffer), vec![words(&buffer)])
            }
            (Call::ReadPolicy, [table, text, buffer]) => {
                let mut buffer = buffer.clone();
                (reference::read_policy(table, &bytes(text), &mut buffer), vec![buffer])
            }
            (Call::WritePolicy, [table, policy, buffer]) => {
                let mut buffer = bytes(buffer);
                let answer = reference::write_policy(table, policy, &mut buffer);
                (answer, vec![words(&buffer)])
            }
            _ => panic!("a call has its own parts"),
        };
        Outcome { answer, lent }
    }
}

/// Compares call by call and counts the answers by their numbers.
pub struct Comparison {
    seed: u64,
    pub random: Random,
    seen: [usize; 16],
}

impl Comparison {
    pub fn new(seed: u64) -> Self {
        println!("seed {seed:#x}");
        Comparison {
            seed,
            random: Random::new(seed),
            seen: [0; 16],
        }
    }

    /// Compares one call, and panics with a small input if library and reference disagree.
    fn compare(&mut self, call: Call, parts: Parts) -> Outcome {
        let expected = call.by_reference(&parts);
        if call.by_library(&parts) != expected {
            let disagree = |parts: &[Vec<i32>]| call.by_library(parts) != call.by_reference(parts);
            let small = shrink(parts, disagree);
            panic!(
                "seed {:#x}: {call:?} of {}\nlibrary:   {:?}\nreference: {:?}",
                self.seed,
                call.shown(&small),
                call.by_library(&small),
                call.by_reference(&small),
            );
        }
        self.seen[expected.answer.number as usize] += 1;
        expected
    }

    /// So many words of any kind.
    fn dirt(&mut self, length: usize) -> Vec<i32> {
        (0..length).map(|_| self.random.number() as i32).collect()
    }

    pub fn policy(&mut self, table: &[i32], policy: &[i32]) -> Answer {
        let parts = vec![table.to_vec(), policy.to_vec()];
        self.compare(Call::CheckPolicy, parts).answer
    }

    pub fn log(&mut self, table: &[i32], log: &[i32]) -> Answer {
        let parts = vec![table.to_vec(), log.to_vec()];
        self.compare(Call::CheckLog, parts).answer
    }

    /// Compares a dual with a buffer of so many words, full of other words at first.
    pub fn dual(&mut self, table: &[i32], policy: &[i32], room: usize) -> Answer {
        let parts = vec![table.to_vec(), policy.to_vec(), self.dirt(room)];
        self.compare(Call::Dual, parts).answer
    }

    /// Compares the check of a policy, and its dual with a buffer that fits, just so or not, or not at all.
    pub fn policy_and_dual(&mut self, table: &[i32], policy: &[i32]) -> Answer {
        let length = policy.len();
        let short = length.saturating_sub(1);
        let room = self.random.pick(&[0, short, length, length, length + 1, length + 20]);
        self.dual(table, policy, room);
        self.policy(table, policy)
    }

    /// Compares a reduction with scratch and buffer of so many words, full of other words at first.
    pub fn reduce(&mut self, case: &Case, scratch: usize, buffer: usize) -> Answer {
        let Case { table, policy, log } = case.clone();
        let (scratch, buffer) = (self.dirt(scratch), self.dirt(buffer));
        self.compare(Call::Reduce, vec![table, policy, log, scratch, buffer])
            .answer
    }

    /// Compares the reading of a text with a buffer of so many words, full of other words at first. Returns the words
    /// of the log too.
    pub fn read_log(&mut self, table: &[i32], text: &[u8], room: usize) -> (Answer, Vec<i32>) {
        let parts = vec![table.to_vec(), words(text), self.dirt(room)];
        let Outcome { answer, mut lent } = self.compare(Call::ReadLog, parts);
        lent[0].truncate(8 * answer.count);
        (answer, lent.remove(0))
    }

    /// Compares the writing of a log with a buffer of so many bytes, full of other bytes at first. Returns the text
    /// too.
    pub fn write_log(&mut self, table: &[i32], log: &[i32], room: usize) -> (Answer, Vec<u8>) {
        let dirt = self.dirt(room).iter().map(|word| word & 0xFF).collect();
        let parts = vec![table.to_vec(), log.to_vec(), dirt];
        let Outcome { answer, lent } = self.compare(Call::WriteLog, parts);
        (answer, bytes(&lent[0][..answer.count]))
    }

    /// Compares the reading of a policy's text with a buffer of so many words, full of other words at first. Returns
    /// the words of the policy too.
    pub fn read_policy(&mut self, table: &[i32], text: &[u8], room: usize) -> (Answer, Vec<i32>) {
        let parts = vec![table.to_vec(), words(text), self.dirt(room)];
        let Outcome { answer, mut lent } = self.compare(Call::ReadPolicy, parts);
        lent[0].truncate(answer.count);
        (answer, lent.remove(0))
    }

    /// Compares the writing of a policy with a buffer of so many bytes, full of other bytes at first. Returns the text
    /// too.
    pub fn write_policy(&mut self, table: &[i32], policy: &[i32], room: usize) -> (Answer, Vec<u8>) {
        let dirt = self.dirt(room).iter().map(|word| word & 0xFF).collect();
        let parts = vec![table.to_vec(), policy.to_vec(), dirt];
        let Outcome { answer, lent } = self.compare(Call::WritePolicy, parts);
        (answer, bytes(&lent[0][..answer.count]))
    }

    /// Makes a table and a policy for it.
    pub fn made(&mut self, recipe: fn(&mut Random) -> Recipe) -> (Vec<i32>, Vec<i32>) {
        let table = good_table(&mut self.random);
        let recipe = recipe(&mut self.random);
        let policy = policy(&mut self.random, &table, &recipe);
        (table, policy)
    }

    /// Asserts that each of these numbers was seen so many times.
    pub fn has_seen(&self, numbers: &[usize], times: usize) {
        println!("answers by number: {:?}", self.seen);
        for number in numbers {
            let seen = self.seen[*number];
            assert!(seen >= times, "number {number} was seen {seen} times only");
        }
    }
}
