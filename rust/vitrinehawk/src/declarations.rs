//! What a prover has to be told of the predicates.

/// The words of a predicate's record.
const RECORD_WORDS: usize = 3;

/// Declares the predicates of a table in the TPTP typed form, a line for each.
///
/// Provers want to know the types of predicates before they meet them: these lines and, behind them, the text that
/// [`write_policy`](crate::write_policy) wrote are a file for them. [`read_policy`](crate::read_policy) takes the axiom
/// alone. A record whose arity is not 1 to 6 has no line; whether the table is good is asked by each call.
///
/// ```
/// let table = [3, 0, 0, 2, 0, 1, 1, 1, 0];
/// assert_eq!(
///     vitrinehawk::declarations(&table),
///     "tff(p0,type,p0:($int*$int*$int)>$o).\n\
///      tff(p1,type,p1:($int*$int)>$o).\n\
///      tff(p2,type,p2:$int>$o).\n"
/// );
/// ```
pub fn declarations(table: &[i32]) -> String {
    let records = table.chunks(RECORD_WORDS).enumerate();
    records
        .filter_map(|(number, record)| declaration(number, record[0]))
        .collect()
}

/// The line for a predicate.
fn declaration(number: usize, arity: i32) -> Option<String> {
    let arguments = match arity {
        1 => "$int".to_owned(),
        2..=6 => format!("({})", vec!["$int"; arity as usize].join("*")),
        _ => return None,
    };
    Some(format!("tff(p{number},type,p{number}:{arguments}>$o).\n"))
}

#[cfg(test)]
mod tests {
    use super::*;

    #[test]
    fn a_line_for_each_predicate() {
        let table: Vec<i32> = (0..256).flat_map(|number| [1 + number % 6, 0, number % 2]).collect();
        let lines = declarations(&table);
        let lines: Vec<&str> = lines.lines().collect();
        assert_eq!(lines.len(), 256);
        assert_eq!(lines[0], "tff(p0,type,p0:$int>$o).");
        assert_eq!(lines[1], "tff(p1,type,p1:($int*$int)>$o).");
        assert_eq!(lines[251], "tff(p251,type,p251:($int*$int*$int*$int*$int*$int)>$o).");
        assert_eq!(lines[255], "tff(p255,type,p255:($int*$int*$int*$int)>$o).");
    }

    #[test]
    fn no_line_for_others() {
        assert_eq!(declarations(&[]), "");
        assert_eq!(declarations(&[0, 0, 0, 7, 0, 0, i32::MAX, 0, 0, -1, 0, 0]), "");
        assert_eq!(declarations(&[7, 0, 0, 1]), "tff(p1,type,p1:$int>$o).\n");
    }
}
