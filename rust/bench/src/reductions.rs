//! The reductions that are measured.

mod cases;

use std::hint::black_box;

use reference::{Answer, PLACE};

use crate::measure::{agreed, Call, Lent, Room, Times};
use crate::report::{row, IMPLEMENTATIONS};
use crate::{answer, library, peer};
use cases::{cases, Case};

/// A reduction with its times.
pub struct Reduction {
    case: Case,
    room: Room,
    times: Vec<Times>,
}

/// Compares and measures all reductions.
pub fn measure_all() -> Vec<Reduction> {
    cases().into_iter().map(measure).collect()
}

/// Compares and measures one reduction. Exactly the scratch and the buffer that it needs are lent.
fn measure(case: Case) -> Reduction {
    let places = reference::places(&case.table, &case.policy, &case.log).expect("the input is accepted");
    let room = Room {
        scratch: PLACE * places,
        buffer: case.residual().len(),
        ..Lent::NOTHING
    };
    for (refused, room, expected) in refused(&case, room) {
        let answer = with_reductions(&refused, |calls| agreed(&case.name, 0, room, calls));
        assert_eq!(answer, expected, "{}: the answer to a bad input", case.name);
    }
    let times = with_reductions(&case, |calls| row(&case.name, 1, room, calls));
    Reduction { case, room, times }
}

/// Does something with the calls that reduce.
fn with_reductions<T>(case: &Case, work: impl FnOnce(&[Call]) -> T) -> T {
    let inputs = || black_box((&case.table[..], &case.policy[..], &case.log[..]));
    work(&[
        &|_, lent| {
            let (table, policy, log) = inputs();
            library(vitrinehawk::reduce(
                table,
                policy,
                log,
                &mut lent.scratch,
                &mut lent.buffer,
            ))
        },
        &|_, lent| {
            let (table, policy, log) = inputs();
            reference::reduce(table, policy, log, &mut lent.scratch, &mut lent.buffer)
        },
        &|_, lent| {
            let (table, policy, log) = inputs();
            answer(peer::reduce(table, policy, log, &mut lent.scratch, &mut lent.buffer))
        },
    ])
}

/// Variants that are refused, with the room that is lent and the answers.
fn refused(case: &Case, room: Room) -> Vec<(Case, Room, Answer)> {
    let with = |change: &dyn Fn(&mut Case)| {
        let mut case = case.clone();
        change(&mut case);
        case
    };
    let (words, rows) = (case.policy.len(), case.log.len() / 8);
    let less = |less: usize| Room {
        buffer: room.buffer - less,
        ..room
    };
    let mut variants = vec![
        (with(&|case| case.table[0] = 7), room, Answer::refused(1, 0)),
        (with(&|case| case.policy.push(1)), room, Answer::refused(3, words)),
        (with(&|case| case.policy.clear()), room, Answer::refused(2, 0)),
        (with(&|case| case.log.push(0)), room, Answer::refused(8, 0)),
        (
            with(&|case| case.log[8 * rows - 7] = 2),
            room,
            Answer::refused(9, rows - 1),
        ),
        (case.clone(), less(1), Answer::refused(12, 0)),
        (case.clone(), less(room.buffer), Answer::refused(12, 0)),
    ];
    if rows < 4_096 {
        let repeated = with(&|case| case.log.extend_from_within(..8));
        variants.push((repeated, room, Answer::refused(10, rows)));
    }
    if words == 1_048_576 {
        variants[1].2 = Answer::refused(2, 0);
    }
    if room.scratch > 0 {
        let short = Room {
            scratch: room.scratch - 1,
            ..room
        };
        variants.push((case.clone(), short, Answer::refused(11, 0)));
    }
    variants
}

/// Prints the size of the inputs and the time for a disclosure.
pub fn print(measured: &[Reduction]) {
    println!("The reductions. Time for a disclosure: microseconds for each true row of send, medians.");
    println!("Growth: the time divided by that of the same input with a quarter of the rows.");
    println!();
    print!(
        "{:<32} {:>6} {:>9} {:>9} {:>8} {:>6}",
        "", "rows", "words", "residual", "places", "sends"
    );
    for implementation in IMPLEMENTATIONS {
        print!(" {implementation:>12} {:>6}", "growth");
    }
    println!();
    for (number, Reduction { case, room, times }) in measured.iter().enumerate() {
        let disclosures = case.disclosures();
        let count = disclosures.map_or("-".into(), |count| count.to_string());
        print!(
            "{:<32} {:>6} {:>9} {:>9} {:>8} {count:>6}",
            case.name,
            case.log.len() / 8,
            case.policy.len(),
            room.buffer,
            room.scratch / PLACE
        );
        let smaller = case.smaller.map(|back| &measured[number - back].times);
        for (column, times) in times.iter().enumerate() {
            let time = disclosures.map(|count| times.median() * 1e6 / count as f64);
            let time = time.map_or("-".into(), |time| format!("{time:.2}"));
            let growth = smaller.map(|smaller| times.median() / smaller[column].median());
            let growth = growth.map_or("-".into(), |growth| format!("{growth:.1}"));
            print!(" {time:>12} {growth:>6}");
        }
        println!();
    }
    println!();
    for Reduction { case, .. } in measured {
        println!("{}: {}.", case.name, case.meaning);
    }
}
