//! The table of times.

use crate::measure::{agreed, measure, Call, Room, Times};

/// The implementations in the order of the columns. The last is there for some calls only.
pub const IMPLEMENTATIONS: [&str; 3] = ["library", "reference", "hand-written"];

/// Compares the calls on all their inputs, which are accepted, measures them and prints a row.
pub fn row(name: &str, inputs: usize, room: Room, calls: &[Call]) -> Vec<Times> {
    row_with(0, name, inputs, room, calls)
}

/// The same for inputs that are all answered with this number.
pub fn row_with(number: u32, name: &str, inputs: usize, room: Room, calls: &[Call]) -> Vec<Times> {
    for input in 0..inputs {
        let answer = agreed(name, input, room, calls);
        assert_eq!(answer.number, number, "{name}: the number of the answer");
    }
    let times = measure(room, calls);
    print_times(name, &times);
    times
}

/// Prints the heads of the columns.
pub fn print_heads() {
    print!("{:<32}", "");
    for implementation in IMPLEMENTATIONS {
        print!(" {implementation:^21}");
    }
    println!("   library divided by");
    print!("{:<32}", "");
    for _ in IMPLEMENTATIONS {
        print!(" {:>10} {:>10}", "best", "median");
    }
    println!(" {:>9} {:>12}", IMPLEMENTATIONS[1], IMPLEMENTATIONS[2]);
}

/// Prints the times of the implementations that a call has, and the library's ratios to the others.
fn print_times(name: &str, times: &[Times]) {
    print!("{name:<32}");
    for times in times {
        print!(" {:>10.2} {:>10.2}", times.best() * 1e6, times.median() * 1e6);
    }
    for _ in times.len()..IMPLEMENTATIONS.len() {
        print!(" {:>10} {:>10}", "-", "-");
    }
    let ratio = |peer: &Times| format!("{:.2}", times[0].median() / peer.median());
    let by_hand = times.get(2).map_or("-".into(), ratio);
    println!(" {:>9} {by_hand:>12}", ratio(&times[1]));
}
