//! Counts of the answers by call and number.

use crate::call::KINDS;
use crate::counts::{Counts, Reverts, Spans, Visits};
use crate::numbers::ANSWERS;

/// The row of mantreuy_pad_name, after those of the calls.
pub const PAD: usize = KINDS.len();

const ROWS: usize = PAD + 1;

/// For each row the numbers that can arise in a command.
pub type Expected = [&'static [u64]; ROWS];

/// A card made by accepted calls passes check: no 10. A shortened one can give 6.
pub const CALLS: Expected = [
    &[0, 1, 2, 3, 4, 5, 17],
    &[0, 1, 4, 6, 7, 8, 9],
    &[0, 1, 6, 8, 9, 11],
    &[0, 1, 4, 6, 11, 12, 13],
    &[0, 1, 4, 6, 7],
    &[0, 1, 6, 14],
    &[0, 1, 6],
    &[0, 1, 4, 6, 7, 8],
    &[0, 1, 4, 6, 7, 16],
    &[0, 1, 6, 11, 16],
    &[],
];

pub const DAMAGED: Expected = [
    &[0, 1, 2, 3, 4, 5, 17],
    &[0, 1, 4, 6, 7, 8, 9, 10],
    &[0, 1, 6, 8, 9, 10, 11],
    &[0, 1, 4, 6, 11, 12, 13],
    &[0, 1, 4, 6, 7],
    &[0, 1, 6, 14],
    &[0, 1, 6, 10],
    &[0, 1, 4, 6, 7, 8, 10],
    &[0, 1, 4, 6, 7, 10, 16],
    &[0, 1, 6, 10, 11, 16],
    &[],
];

/// The card is always the whole one and sound; an accepted ream stands only at the start.
pub const ROLLBACK: Expected = [
    &[0, 2, 3, 4, 5, 17],
    &[0, 4, 7, 8, 9],
    &[0, 8, 9, 11],
    &[0, 4, 11, 12, 13],
    &[0, 4, 7],
    &[0, 14],
    &[0],
    &[0, 4, 7, 8],
    &[0, 4, 7, 16],
    &[0, 11, 16],
    &[],
];

/// What the cases worked out by hand give, and chains of each length, whole and with an unsound
/// last descriptor.
pub const VALUES: Expected = [
    &[0, 1, 2, 3, 4, 5, 17],
    &[0, 6, 7, 10],
    &[0, 6, 11],
    &[0, 6, 11, 12, 13],
    &[0, 1, 4, 6, 7],
    &[0, 6],
    &[0, 6, 10],
    &[0, 1, 4, 6, 7, 8, 10],
    &[0, 1, 4, 6, 7, 10, 16],
    &[0, 1, 6, 10, 11, 16],
    &[],
];

pub const NAMES: Expected = [&[], &[], &[], &[], &[], &[], &[], &[], &[], &[], &[0, 4]];

#[derive(Default)]
pub struct Table {
    counts: Counts,
    /// What else was counted, as last remarks.
    pub reverts: Reverts,
    pub compared: u64,
    pub visits: Visits,
    pub spans: Spans,
    /// How many names of visits were held against the origins.
    pub names: u64,
}

impl Table {
    /// Counts an answer, if the number is one.
    pub fn count(&mut self, row: usize, number: u32) -> Result<(), String> {
        let number = u64::from(number);
        if !ANSWERS.contains(&number) {
            return Err(format!("the number {number}"));
        }
        self.counts.add(row, number, 1);
        Ok(())
    }

    /// Prints the table.
    pub fn print(&self, expected: Expected) {
        let titles = titles();
        let used = |row: usize| !expected[row].is_empty();
        let rows = (0..ROWS).map(|row| if used(row) { titles[row] } else { "" });
        self.counts
            .print("call", &rows.collect::<Vec<_>>(), &ANSWERS);
        let sum: u64 = self.counts.given().map(|(_, _, times)| times).sum();
        println!("{sum} calls");
        self.reverts.print(self.compared);
        self.visits.print();
        self.spans.print();
        if self.names > 0 {
            println!("{} names compared with the origins", self.names);
        }
    }

    /// What cannot arise and did.
    pub fn strange(&self, expected: Expected) -> Vec<String> {
        let titles = titles();
        self.counts
            .strange(&expected)
            .map(|(row, number, _)| format!("{} {number}", titles[row]))
            .collect()
    }

    /// What can arise and did not.
    pub fn missing(&self, expected: Expected) -> Vec<String> {
        self.counts.missing(&titles(), &expected)
    }
}

fn titles() -> Vec<&'static str> {
    KINDS.into_iter().chain(["pad"]).collect()
}
