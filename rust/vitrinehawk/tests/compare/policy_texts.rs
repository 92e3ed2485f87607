//! Policies in the TPTP typed form: reading and writing.

use inputs::{
    damage, damage_policy_text, damaged_table, deep_policy_texts, good_table, long_policy, noise_policy_text,
    slipping_policy_text, spelled_policy, Case, PolicySpelling, Random, Recipe, POLICY_TEXT_BYTES,
};
use reference::Answer;

use crate::comparison::Comparison;
use crate::reductions::need;
use crate::texts::{expected, room, rooms};

/// Small accepted policies, whose texts are short.
fn short(random: &mut Random) -> Recipe {
    Recipe {
        nodes: random.pick(&[1, 3, 6, 10]),
        depth: random.pick(&[0, 0, 4]),
        most_variables: random.pick(&[2, 4, 16]),
        ..Recipe::good(random)
    }
}

/// A table and a policy, with its text spelled in any way.
fn table_and_text(comparison: &mut Comparison, recipe: fn(&mut Random) -> Recipe) -> (Vec<i32>, Vec<u8>, Vec<i32>) {
    let (table, policy) = comparison.made(recipe);
    let spelling = PolicySpelling::any(&mut comparison.random);
    let text = spelled_policy(&mut comparison.random, &policy, spelling);
    (table, text, policy)
}

/// Compares reading a text with all kinds of buffers, and makes sure that it stands for this policy.
fn check_read(comparison: &mut Comparison, table: &[i32], text: &[u8], policy: &[i32]) {
    for room in rooms(policy.len()) {
        let (answer, read) = comparison.read_policy(table, text, room);
        assert_eq!(
            answer,
            expected(policy.len(), room, policy.len()),
            "{}",
            text.escape_ascii()
        );
        assert!(answer.number != 0 || read == policy, "{}", text.escape_ascii());
    }
}

/// The same for writing a policy.
fn check_written(comparison: &mut Comparison, table: &[i32], policy: &[i32], text: &[u8]) {
    for room in rooms(text.len()) {
        let (answer, written) = comparison.write_policy(table, policy, room);
        assert_eq!(answer, expected(text.len(), room, text.len()), "{policy:?}");
        assert!(answer.number != 0 || written == text, "{policy:?}");
    }
}

#[test]
fn policies_written_and_read_back() {
    let mut comparison = Comparison::new(0xE001);
    for _ in 0..3_000 {
        let (table, policy) = comparison.made(Recipe::good);
        let text = spelled_policy(&mut comparison.random, &policy, PolicySpelling::PLAIN);
        check_written(&mut comparison, &table, &policy, &text);
        check_read(&mut comparison, &table, &text, &policy);
        assert!(policy.len() <= text.len() && text.len() <= 18 * policy.len() + 14);
    }
    comparison.has_seen(&[0, 12], 10_000);
}

/// Any name, and blanks at any place. What is read is written plainly, and read again it is the same.
#[test]
fn policies_as_other_programs_write_them() {
    let mut comparison = Comparison::new(0xE002);
    for _ in 0..1_500 {
        let (table, policy) = comparison.made(Recipe::good);
        for blanks in [None, Some(1), Some(4), Some(50)] {
            let spelling = PolicySpelling { blanks, any_name: true };
            let text = spelled_policy(&mut comparison.random, &policy, spelling);
            check_read(&mut comparison, &table, &text, &policy);
            let (_, read) = comparison.read_policy(&table, &text, policy.len());
            let (_, written) = comparison.write_policy(&table, &read, 18 * read.len() + 14);
            check_read(&mut comparison, &table, &written, &policy);
        }
    }
    comparison.has_seen(&[0, 12], 10_000);
}

/// What is left of a policy, with excluded tuples, goes through text and back.
#[test]
fn residuals_written_and_read_back() {
    let mut comparison = Comparison::new(0xE003);
    let mut excluding = 0;
    for _ in 0..4_000 {
        let case = Case::good(&mut comparison.random);
        let Some((_, residual)) = need(&case) else { continue };
        let text = spelled_policy(&mut comparison.random, &residual, PolicySpelling::PLAIN);
        excluding += usize::from(text.windows(2).any(|bytes| bytes == b"!="));
        check_written(&mut comparison, &case.table, &residual, &text);
        check_read(&mut comparison, &case.table, &text, &residual);
    }
    println!("{excluding} with excluded tuples");
    assert!(excluding > 500);
    comparison.has_seen(&[0, 12], 5_000);
}

#[test]
fn refused_policies_are_not_written() {
    let mut comparison = Comparison::new(0xE004);
    for _ in 0..20_000 {
        let (table, mut policy) = comparison.made(Recipe::near_miss);
        if comparison.random.once_in(3) {
            damage(&mut comparison.random, &mut policy);
        }
        // Question 12 comes last: a short buffer makes no difference to the others.
        let room = comparison.random.pick(&[0, 1, 20, 100, 18 * policy.len() + 14]);
        comparison.write_policy(&table, &policy, room);
    }
    comparison.has_seen(&[0, 3, 4, 5, 6, 7, 12], 300);
    comparison.has_seen(&[2], 20);
}

/// Texts that are well formed, of policies that are refused or just not; 7 comes before 12.
#[test]
fn texts_of_refused_policies() {
    let mut comparison = Comparison::new(0xE005);
    for _ in 0..30_000 {
        let (table, text, policy) = table_and_text(&mut comparison, Recipe::near_miss);
        let table = if comparison.random.once_in(4) {
            good_table(&mut comparison.random)
        } else {
            table
        };
        let room = room(&mut comparison.random, policy.len());
        comparison.read_policy(&table, &text, room);
        comparison.read_policy(&table, &text, 0);
    }
    comparison.has_seen(&[0, 4, 5, 6, 7, 12, 15], 500);
}

#[test]
fn policy_texts_with_slips() {
    let mut comparison = Comparison::new(0xE006);
    for _ in 0..40_000 {
        let (table, policy) = comparison.made(short);
        let text = slipping_policy_text(&mut comparison.random, &policy);
        let room = room(&mut comparison.random, policy.len());
        comparison.read_policy(&table, &text, room);
    }
    comparison.has_seen(&[0, 12, 15], 3_000);
    comparison.has_seen(&[5, 6, 7], 10);
}

#[test]
fn damaged_policy_texts() {
    let mut comparison = Comparison::new(0xE007);
    for _ in 0..8_000 {
        let (table, text, policy) = table_and_text(&mut comparison, short);
        for _ in 0..5 {
            let mut damaged = text.clone();
            for _ in 0..comparison.random.between(1, 3) {
                damage_policy_text(&mut comparison.random, &mut damaged);
            }
            let room = room(&mut comparison.random, policy.len());
            comparison.read_policy(&table, &damaged, room);
        }
    }
    comparison.has_seen(&[0, 5, 12, 15], 100);
    comparison.has_seen(&[6, 7], 20);
}

#[test]
fn pieces_without_order() {
    let mut comparison = Comparison::new(0xE008);
    for _ in 0..100_000 {
        let table = good_table(&mut comparison.random);
        let text = noise_policy_text(&mut comparison.random, 8);
        comparison.read_policy(&table, &text, 24);
    }
    comparison.has_seen(&[0, 5, 15], 300);
    comparison.has_seen(&[6], 20);
}

#[test]
fn every_cut_of_a_policy_text() {
    let mut comparison = Comparison::new(0xE009);
    for _ in 0..400 {
        let (table, text, policy) = table_and_text(&mut comparison, short);
        // What is left of an allowed text is refused at its end, unless only blanks are cut off.
        let whole = text.iter().rposition(|byte| *byte == b'.').map_or(0, |last| last + 1);
        for length in 0..=text.len() {
            let room = room(&mut comparison.random, policy.len());
            let (answer, _) = comparison.read_policy(&table, &text[..length], room);
            if length < whole {
                assert_eq!(answer, Answer::refused(15, length), "{}", text.escape_ascii());
            } else {
                assert_eq!(answer, expected(policy.len(), room, policy.len()));
            }
        }
    }
    comparison.has_seen(&[0, 12], 100);
    comparison.has_seen(&[15], 10_000);
}

/// Bytes replaced by each other one.
#[test]
fn every_byte_of_a_policy_text_changed() {
    let mut comparison = Comparison::new(0xE00A);
    let mut tried = 0;
    while tried < 300 {
        let (table, mut text, policy) = table_and_text(&mut comparison, short);
        if text.len() > 200 {
            continue;
        }
        tried += 1;
        for _ in 0..12 {
            let place = comparison.random.below(text.len());
            let before = text[place];
            for byte in 0..=255 {
                text[place] = byte;
                comparison.read_policy(&table, &text, policy.len());
            }
            text[place] = before;
        }
    }
    comparison.has_seen(&[0, 15], 10_000);
    comparison.has_seen(&[5, 6], 100);
}

/// Every byte replaced by each of those that matter, dropped, or another one put before it.
#[test]
fn bytes_changed_at_every_place() {
    let mut comparison = Comparison::new(0xE00B);
    let mut tried = 0;
    while tried < 300 {
        let (table, text, policy) = table_and_text(&mut comparison, short);
        if text.len() > 250 {
            continue;
        }
        tried += 1;
        for place in 0..text.len() {
            let (front, rest) = text.split_at(place);
            comparison.read_policy(&table, &[front, &rest[1..]].concat(), policy.len());
            for byte in POLICY_TEXT_BYTES {
                let room = room(&mut comparison.random, policy.len());
                comparison.read_policy(&table, &[front, &[byte], &rest[1..]].concat(), room);
            }
            for _ in 0..10 {
                let byte = comparison.random.pick(&POLICY_TEXT_BYTES);
                comparison.read_policy(&table, &[front, &[byte], rest].concat(), policy.len());
            }
        }
    }
    comparison.has_seen(&[0, 5, 12, 15], 2_000);
    comparison.has_seen(&[6, 7], 100);
}

/// Every length of a buffer up to a little more than enough, also where another question is answered with "no".
#[test]
fn every_length_of_a_policy_buffer() {
    let mut comparison = Comparison::new(0xE00C);
    for _ in 0..200 {
        let (table, text, policy) = table_and_text(&mut comparison, short);
        for room in 0..=policy.len() + 3 {
            let (answer, _) = comparison.read_policy(&table, &text, room);
            assert_eq!(answer, expected(policy.len(), room, policy.len()));
        }
        let plain = spelled_policy(&mut comparison.random, &policy, PolicySpelling::PLAIN);
        for room in 0..=plain.len() + 3 {
            let (answer, _) = comparison.write_policy(&table, &policy, room);
            assert_eq!(answer, expected(plain.len(), room, plain.len()));
        }
        let (other_table, other_text, other) = table_and_text(&mut comparison, Recipe::near_miss);
        for room in 0..=40 {
            comparison.read_policy(&other_table, &other_text, room);
            comparison.write_policy(&other_table, &other, room);
        }
    }
    comparison.has_seen(&[0, 3, 4, 5, 6, 7, 12, 15], 300);
}

/// About as many parentheses open at once as there may be.
#[test]
fn texts_with_many_open_parentheses() {
    let mut comparison = Comparison::new(0xE00D);
    let table = [1, 0, 1, 2, 0, 0];
    for open in [40, 60, 66, 70, 130, 254, 255, 256, 257, 258, 300] {
        for deep in deep_policy_texts(open) {
            let (answer, _) = comparison.read_policy(&table, &deep.text, 1_000);
            if open > 256 {
                assert_eq!(answer.number, 4, "{}", deep.name);
            }
            if open == 257 {
                assert_eq!(answer.place, deep.innermost, "{}", deep.name);
            }
            // Cut off, or with another byte, about the innermost one.
            for place in deep.innermost.saturating_sub(20)..deep.innermost + 20 {
                let (front, rest) = deep.text.split_at(place);
                comparison.read_policy(&table, front, 0);
                for byte in *b"(X$%" {
                    comparison.read_policy(&table, &[front, &[byte], &rest[1..]].concat(), 0);
                }
            }
            comparison.read_policy(&table, &[&deep.text[..], b"%"].concat(), 0);
        }
    }
    comparison.has_seen(&[4, 15], 1_000);
}

/// Quantifiers and joins, one in the other, down to some level; with the words and the place where the first node lies
/// beyond the greatest level.
fn tower(random: &mut Random, levels: usize) -> (Vec<i32>, Option<usize>) {
    let (mut words, mut behind) = (Vec::new(), Vec::new());
    let (mut level, mut scope, mut under, mut first_beyond) = (0, 0, None, None);
    let quantifiers_in = random.pick(&[2, 3]);
    while level + 1 < levels {
        let all = random.once_in(2);
        let place = words.len();
        if scope < 16 && random.once_in(quantifiers_in) {
            level += if under == Some(all) { 1 } else { 2 };
            words.extend([if all { 8 } else { 9 }, 1, 0, 2, 0, 1, 1, scope]);
            if level == 64 {
                first_beyond = first_beyond.or(Some(place + 3));
            }
            (scope, under) = (scope + 1, None);
        } else {
            level += 1;
            words.extend([if all { 6 } else { 7 }, 2]);
            // The next one is the first operand more often than the last.
            if random.once_in(3) {
                words.push(1);
                if level == 64 {
                    first_beyond = first_beyond.or(Some(place + 2));
                }
            } else {
                behind.push(0);
            }
            under = Some(all);
        }
        if level > 64 {
            first_beyond = first_beyond.or(Some(place));
        }
    }
    if level == 64 {
        first_beyond = first_beyond.or(Some(words.len()));
    }
    words.push(1);
    words.extend(behind);
    (words, first_beyond)
}

/// A quantifier that is the first operand costs one level or two, as the connective behind it tells.
#[test]
fn levels_of_first_operands() {
    let mut comparison = Comparison::new(0xE00E);
    let (mut within, mut beyond) = (0, 0);
    for _ in 0..6_000 {
        let levels = comparison.random.between(62, 66);
        let (words, first_beyond) = tower(&mut comparison.random, levels);
        let spelling = PolicySpelling::any(&mut comparison.random);
        let text = spelled_policy(&mut comparison.random, &words, spelling);
        for room in rooms(words.len()) {
            let (answer, read) = comparison.read_policy(&[1, 0, 0], &text, room);
            let expected = match first_beyond {
                Some(place) => Answer::refused(4, place),
                None => expected(words.len(), room, words.len()),
            };
            assert_eq!(answer, expected, "{words:?}");
            assert!(answer.number != 0 || read == words, "{words:?}");
        }
        match first_beyond {
            Some(_) => beyond += 1,
            None => within += usize::from(comparison.policy(&[1, 0, 0], &words).count == 64),
        }
    }
    println!("{within} with 64 levels, {beyond} with more");
    assert!(within > 1_000 && beyond > 1_000);
}

/// About as many words as a policy may have.
#[test]
fn long_policy_texts() {
    let mut comparison = Comparison::new(0xE00F);
    let table = [3, 0, 0, 2, 0, 1, 1, 1, 0];
    for words in [1_048_575, 1_048_576, 1_048_577, 1_200_000] {
        let random = &mut comparison.random;
        let policy = long_policy(random, &table, words);
        let spelling = PolicySpelling::any(random);
        let text = spelled_policy(random, &policy, spelling);
        let mut damaged = text.clone();
        damage_policy_text(random, &mut damaged);
        let room = room(random, policy.len());
        comparison.read_policy(&table, &text, room);
        comparison.read_policy(&table, &text, 0);
        comparison.read_policy(&table, &damaged, room);
        comparison.read_policy(&table, &text[..text.len() - 20], room);
        comparison.write_policy(&table, &policy, text.len());
        comparison.write_policy(&table, &policy, 1_000);
    }
    comparison.has_seen(&[0, 2, 12, 15], 2);
}

/// Question 1 comes first.
#[test]
fn tables_of_policy_texts() {
    let mut comparison = Comparison::new(0xE010);
    for _ in 0..20_000 {
        let (_, text, words) = table_and_text(&mut comparison, short);
        let table = damaged_table(&mut comparison.random);
        comparison.read_policy(&table, &text, words.len());
        comparison.write_policy(&table, &words, 200);
        let noise = noise_policy_text(&mut comparison.random, 4);
        comparison.read_policy(&table, &noise, 8);
    }
    comparison.has_seen(&[0, 1, 5, 15], 500);
}
