//! Log checks.

use inputs::{damage, damaged_log, good_log, good_table};
use reference::Answer;

use crate::comparison::Comparison;

#[test]
fn logs() {
    let mut comparison = Comparison::new(0xA00A);
    for _ in 0..20_000 {
        let table = good_table(&mut comparison.random);
        let good = good_log(&mut comparison.random, &table, 30, 4);
        let answer = comparison.log(&table, &good);
        assert_eq!(answer, Answer::accepted(good.len() / 8));
        for _ in 0..4 {
            let log = damaged_log(&mut comparison.random, &table, 30);
            comparison.log(&table, &log);
        }
    }
    comparison.has_seen(&[0, 8, 9, 10], 1_000);
}

#[test]
fn cut_off_logs() {
    let mut comparison = Comparison::new(0xA00B);
    for _ in 0..300 {
        let table = good_table(&mut comparison.random);
        let log = damaged_log(&mut comparison.random, &table, 40);
        for length in 0..log.len() {
            comparison.log(&table, &log[..length]);
        }
    }
    comparison.has_seen(&[0, 8, 9, 10], 100);
}

#[test]
fn long_logs() {
    let mut comparison = Comparison::new(0xA00C);
    for _ in 0..40 {
        let table = [6, 0, 1, 1, 1, 0, 3, 2, 0];
        let mut log = good_log(&mut comparison.random, &table, 4_000, 9);
        comparison.log(&table, &log);
        if let Some(rows) = (log.len() / 8).checked_sub(1) {
            let mut repeated = log.clone();
            let row = comparison.random.below(rows + 1);
            repeated.extend_from_within(8 * row..8 * row + 8);
            comparison.log(&table, &repeated);
        }
        for _ in 0..3 {
            damage(&mut comparison.random, &mut log);
            comparison.log(&table, &log);
        }
    }
    comparison.has_seen(&[0, 8, 9, 10], 10);
}
