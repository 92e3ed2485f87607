//! The hospital's predicates, people and roles, by name and by number.

/// What the numbers at an argument stand for.
#[derive(Clone, Copy, Debug, PartialEq, Eq)]
pub enum Sort {
    /// A patient, or somebody who sends or receives.
    Person,
    /// What somebody works as.
    Role,
    /// A day, as a number.
    Day,
}

/// An argument of a predicate.
#[derive(Clone, Copy, Debug)]
pub struct Argument {
    pub name: &'static str,
    pub sort: Sort,
    pub input: bool,
}

/// A predicate of the table.
#[derive(Clone, Copy, Debug)]
pub struct Predicate {
    pub name: &'static str,
    pub arguments: &'static [Argument],
    pub complete: bool,
    /// What its atoms say.
    pub meaning: &'static str,
}

pub const SENT: usize = 0;
pub const IN_ROLE: usize = 1;
pub const CONSENTED: usize = 2;
pub const FOR_TREATMENT: usize = 3;
pub const BELIEVED_NECESSARY: usize = 4;

/// The predicates by their numbers.
pub const PREDICATES: [Predicate; 5] = [
    Predicate {
        name: "sent",
        arguments: &SENDING,
        complete: false,
        meaning: "the patient's record was sent",
    },
    Predicate {
        name: "in_role",
        arguments: &[output("person", Sort::Person), output("role", Sort::Role)],
        complete: true,
        meaning: "the person has the role",
    },
    Predicate {
        name: "consented",
        arguments: &[
            output("patient", Sort::Person),
            output("receiver", Sort::Person),
            output("since", Sort::Day),
        ],
        complete: true,
        meaning: "the patient signed a consent",
    },
    Predicate {
        name: "for_treatment",
        arguments: &JUDGED,
        complete: false,
        meaning: "the purpose was treatment",
    },
    Predicate {
        name: "believed_necessary",
        arguments: &JUDGED,
        complete: false,
        meaning: "the sender's good-faith belief",
    },
];

const SENDING: [Argument; 4] = [
    output("sender", Sort::Person),
    output("receiver", Sort::Person),
    output("patient", Sort::Person),
    output("day", Sort::Day),
];

/// A person judges a given sending, so all arguments are inputs.
const JUDGED: [Argument; 4] = [
    input(SENDING[0]),
    input(SENDING[1]),
    input(SENDING[2]),
    input(SENDING[3]),
];

const fn output(name: &'static str, sort: Sort) -> Argument {
    let input = false;
    Argument { name, sort, input }
}

const fn input(argument: Argument) -> Argument {
    Argument {
        input: true,
        ..argument
    }
}

pub const HUBER: i32 = 1;
pub const BRANDT: i32 = 2;
pub const ADLER: i32 = 3;
pub const RUIZ: i32 = 4;
pub const KERN: i32 = 5;
pub const LINDT: i32 = 6;
pub const WEISS: i32 = 7;
pub const OKAFOR: i32 = 8;
pub const MOREAU: i32 = 9;

const PEOPLE: [(i32, &str); 9] = [
    (HUBER, "Huber"),
    (BRANDT, "Brandt"),
    (ADLER, "Adler"),
    (RUIZ, "Ruiz"),
    (KERN, "Kern"),
    (LINDT, "Lindt"),
    (WEISS, "Weiss"),
    (OKAFOR, "Okafor"),
    (MOREAU, "Moreau"),
];

pub const NURSE: i32 = 1;
pub const CLERK: i32 = 2;
pub const PHYSICIAN: i32 = 3;
pub const INSURER: i32 = 4;
pub const POLICE: i32 = 5;

const ROLES: [(i32, &str); 5] = [
    (NURSE, "nurse"),
    (CLERK, "clerk"),
    (PHYSICIAN, "physician"),
    (INSURER, "insurer"),
    (POLICE, "police"),
];

/// The words of the predicate table.
pub fn table() -> Vec<i32> {
    let record = |predicate: &Predicate| {
        let inputs = predicate.arguments.iter().zip(0..);
        let mask = inputs.map(|(argument, bit)| i32::from(argument.input) << bit).sum();
        [predicate.arguments.len() as i32, mask, i32::from(predicate.complete)]
    };
    PREDICATES.iter().flat_map(record).collect()
}

/// The name of a number at an argument of that sort, or the number itself if it has none.
pub fn constant(sort: Sort, number: i32) -> String {
    let names: &[(i32, &str)] = match sort {
        Sort::Person => &PEOPLE,
        Sort::Role => &ROLES,
        Sort::Day => &[],
    };
    let named = names.iter().find(|(named, _)| *named == number);
    named.map_or(number.to_string(), |(_, name)| (*name).to_string())
}

#[cfg(test)]
mod tests {
    use super::*;

    #[test]
    fn the_table_has_its_words() {
        assert_eq!(table(), [4, 0, 0, 2, 0, 1, 3, 0, 1, 4, 15, 0, 4, 15, 0]);
    }

    #[test]
    fn numbers_are_named_by_their_sort() {
        assert_eq!(constant(Sort::Person, 3), "Adler");
        assert_eq!(constant(Sort::Role, 3), "physician");
        assert_eq!(constant(Sort::Day, 3), "3");
        assert_eq!(constant(Sort::Role, -1), "-1");
    }
}
