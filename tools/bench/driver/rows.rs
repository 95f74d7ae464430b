//! What rows of sets and of maps have in common: how they are named, and on which data and sizes
//! they are timed.

use crate::data::{Data, Numbers};

/// What one operation of a row is.
#[derive(PartialEq)]
pub enum Operation {
    /// A call on two whole sets or maps.
    Whole,
    /// A call for one element or key.
    Single,
    /// The same, where it moves what stands behind: a row takes time by the square of its length.
    Moving,
}

/// What a row does: its name, its number in the library, and what one operation of it is.
pub struct Row {
    pub name: &'static str,
    pub number: u64,
    operation: Operation,
}

impl Row {
    pub const fn of(name: &'static str, number: u64, operation: Operation) -> Row {
        Row { name, number, operation }
    }

    /// Whether this part of its name asks for it, and it takes no time by the square of many.
    fn is_wanted(&self, only: &str, n: usize) -> bool {
        self.name.contains(only) && (self.operation != Operation::Moving || n <= 10_000)
    }

    /// How many operations a round of it does.
    pub fn operations(&self, data: &Numbers) -> usize {
        data.pairs() * if self.operation == Operation::Whole { 1 } else { data.n }
    }
}

/// Data, how many of the rows are timed on them, and the sizes.
pub type Case = (Data, usize, &'static [(usize, usize)]);

/// Times the rows that are asked for on each case, and the one of total sets or maps where a case
/// has all rows.
pub fn time_cases(
    only: &str,
    rows: &[Row],
    total: &Row,
    cases: &[Case],
    time: impl Fn(&[&Row], Option<&Row>, &Numbers),
) {
    for (data, count, sizes) in cases {
        for sizes in *sizes {
            let wanted = |row: &&Row| row.is_wanted(only, sizes.1);
            let timed: Vec<&Row> = rows[..*count].iter().filter(wanted).collect();
            let total = Some(total).filter(wanted).filter(|_| *count == rows.len());
            if !timed.is_empty() || total.is_some() {
                time(&timed, total, &Numbers::new(*data, *sizes));
            }
        }
    }
}
