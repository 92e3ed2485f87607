//! Measuring: the implementations of a call take turns, and short calls are repeated in a batch.

use std::hint::black_box;
use std::time::{Duration, Instant};

use reference::Answer;

/// How often each implementation has its turn.
pub const REPETITIONS: usize = 21;

/// An implementation that takes longer has a turn only now and then, one in so many.
pub const SLOW: Duration = Duration::from_millis(100);
pub const SELDOM: usize = 7;

/// The least time of a batch.
pub const BATCH: Duration = Duration::from_micros(200);

/// What scratch and the buffer are full of before each call.
pub const GARBAGE: i32 = -1;

/// The words and bytes that are lent to a call.
pub struct Lent {
    pub scratch: Vec<i32>,
    pub buffer: Vec<i32>,
    /// The buffer of a call that writes text.
    pub bytes: Vec<u8>,
}

impl Lent {
    /// Nothing is lent.
    pub const NOTHING: Room = Room {
        scratch: 0,
        buffer: 0,
        bytes: 0,
    };

    /// Words and bytes full of garbage.
    fn new(room: Room) -> Self {
        Lent {
            scratch: vec![GARBAGE; room.scratch],
            buffer: vec![GARBAGE; room.buffer],
            bytes: vec![GARBAGE as u8; room.bytes],
        }
    }

    fn is_empty(&self) -> bool {
        self.scratch.is_empty() && self.buffer.is_empty() && self.bytes.is_empty()
    }

    /// Fills all with garbage.
    fn spoil(&mut self) {
        self.scratch.fill(GARBAGE);
        self.buffer.fill(GARBAGE);
        self.bytes.fill(GARBAGE as u8);
    }
}

/// How many words and bytes are lent.
#[derive(Clone, Copy)]
pub struct Room {
    pub scratch: usize,
    pub buffer: usize,
    pub bytes: usize,
}

/// A call of one implementation, on the input with a number (they go round) and on what is lent.
pub type Call<'a> = &'a dyn Fn(usize, &mut Lent) -> Answer;

/// The seconds that one call takes, measured several times and sorted.
pub struct Times(Vec<f64>);

impl Times {
    /// The least.
    pub fn best(&self) -> f64 {
        self.0[0]
    }

    /// The one in the middle.
    pub fn median(&self) -> f64 {
        self.0[self.0.len() / 2]
    }
}

/// Makes sure that all calls on an input have the same answer and leave the same in what is lent. Returns the answer.
pub fn agreed(name: &str, input: usize, room: Room, calls: &[Call]) -> Answer {
    let mut results = calls.iter().map(|call| {
        let mut lent = Lent::new(room);
        (call(input, &mut lent), lent)
    });
    let (answer, lent) = results.next().expect("there is a call");
    for (other_answer, other) in results {
        assert_eq!(answer, other_answer, "{name}: the answers differ");
        assert!(lent.buffer == other.buffer, "{name}: the buffers differ");
        assert!(lent.bytes == other.bytes, "{name}: the texts differ");
        assert!(lent.scratch == other.scratch, "{name}: scratch differs");
    }
    answer
}

/// Measures calls in turns.
pub fn measure(room: Room, calls: &[Call]) -> Vec<Times> {
    let mut lent = Lent::new(room);
    let mut turns: Vec<_> = calls.iter().map(|call| Turns::new(call, &mut lent)).collect();
    for round in 0..REPETITIONS {
        for turns in &mut turns {
            if !turns.slow || round % SELDOM == 0 {
                turns.take(&mut lent);
            }
        }
    }
    turns.into_iter().map(Turns::times).collect()
}

/// The turns of one implementation.
struct Turns<'a> {
    call: Call<'a>,
    /// The next input.
    input: usize,
    /// The number of calls in a turn.
    batch: u32,
    /// Whether it has few turns.
    slow: bool,
    /// The seconds for one call, in each turn.
    times: Vec<f64>,
}

impl<'a> Turns<'a> {
    /// Finds out how many calls make up a batch. A call that is lent something is made alone, so that it never finds an
    /// earlier result there.
    fn new(call: Call<'a>, lent: &mut Lent) -> Self {
        let mut turns = Turns {
            call,
            input: 0,
            batch: 1,
            slow: false,
            times: Vec::new(),
        };
        loop {
            let time = turns.run(lent);
            if time >= BATCH || !lent.is_empty() {
                turns.slow = time > SLOW;
                return turns;
            }
            turns.batch *= 2;
        }
    }

    /// Makes a batch of calls on words and bytes full of garbage and returns their time.
    fn run(&mut self, lent: &mut Lent) -> Duration {
        lent.spoil();
        let start = Instant::now();
        for _ in 0..self.batch {
            black_box((self.call)(self.input, black_box(&mut *lent)));
            self.input += 1;
        }
        start.elapsed()
    }

    fn take(&mut self, lent: &mut Lent) {
        let time = self.run(lent).as_secs_f64() / f64::from(self.batch);
        self.times.push(time);
    }

    fn times(mut self) -> Times {
        self.times.sort_by(f64::total_cmp);
        Times(self.times)
    }
}
