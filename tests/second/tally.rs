//! Counts of the answers that sheets give, by op and number.

use crate::counts::Counts;
use crate::numbers::ANSWERS;
use crate::sheet::ILL_FORMED;

pub const OPS: [&str; 8] = [
    "ream", "read", "write", "snap", "revert", "list", "check", "other",
];

/// The row of lines that begin with no known op, and of sheets that are too long.
pub const OTHER: usize = 7;

/// For each op the numbers that can arise on a sheet. A card made by accepted calls alone
/// passes check, so there is no 10; 64 blocks hold no 256 descriptors, so no 13 and no 14; no line
/// is of a span, so no 16; the desk's revision is 0, so no 17.
const CAN_ARISE: [&[u64]; 8] = [
    &[0, 1, 2, 3, 4, 5, ILL_FORMED],
    &[0, 4, 6, 7, 8, ILL_FORMED],
    &[0, 6, 8, 11, ILL_FORMED],
    &[0, 4, 6, 11, 12, ILL_FORMED],
    &[0, 4, 6, 7, ILL_FORMED],
    &[0, 6, ILL_FORMED],
    &[0, 6, ILL_FORMED],
    &[ILL_FORMED],
];

#[derive(Clone, Default)]
pub struct Tally {
    counts: Counts,
}

/// The row of a line, by its first bytes.
pub fn op_of(line: &[u8]) -> usize {
    let begins = |op: &&str| line.starts_with(format!("op={op}").as_bytes());
    OPS.iter().position(begins).unwrap_or(OTHER)
}

impl Tally {
    pub fn count(&mut self, op: usize, number: u64) {
        self.counts.add(op, number, 1);
    }

    pub fn add(&mut self, other: &Tally) {
        for (op, number, times) in other.counts.given() {
            self.counts.add(op, number, times);
        }
    }

    /// Prints the table.
    pub fn print(&self) {
        let mut numbers = [&ANSWERS[..], &[ILL_FORMED]].concat();
        numbers.sort();
        self.counts.print("op", &OPS, &numbers);
    }

    /// What can arise on a sheet and did not.
    pub fn missing(&self) -> Vec<String> {
        self.counts.missing(&OPS, &CAN_ARISE)
    }

    /// How many answers there were that cannot arise on a sheet.
    pub fn impossible(&self) -> u64 {
        self.counts
            .strange(&CAN_ARISE)
            .map(|(_, _, times)| times)
            .sum()
    }
}
