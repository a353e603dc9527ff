//! Counts of answers, by the row of a table and by the answer's number; of accepted reverts, of
//! accepted visits and of accepted spans.

use crate::blockwise::Need;
use crate::call::Call;
use crate::extent::touched;
use crate::numbers::TABLE_ENTRIES;
use crate::store::{Name, Target};
use std::collections::BTreeMap;

/// From how many random lists on all that can arise must have arisen.
pub const ENOUGH: u64 = 1_000;

#[derive(Clone, Default)]
pub struct Counts(BTreeMap<(usize, u64), u64>);

impl Counts {
    pub fn add(&mut self, row: usize, number: u64, times: u64) {
        *self.0.entry((row, number)).or_default() += times;
    }

    /// How often the number was given in the row.
    pub fn of(&self, row: usize, number: u64) -> u64 {
        self.0.get(&(row, number)).copied().unwrap_or(0)
    }

    /// Row, number and count of all that was given.
    pub fn given(&self) -> impl Iterator<Item = (usize, u64, u64)> + '_ {
        self.0
            .iter()
            .map(|((row, number), times)| (*row, *number, *times))
    }

    /// Prints the columns of these numbers, a row for each title that is not empty.
    pub fn print(&self, head: &str, titles: &[&str], numbers: &[u64]) {
        print!("{head:10}");
        for number in numbers {
            print!(" {number:>7}");
        }
        println!();
        for (row, title) in titles.iter().enumerate() {
            if title.is_empty() {
                continue;
            }
            print!("{title:10}");
            for number in numbers {
                print!(" {:>7}", self.of(row, *number));
            }
            println!();
        }
    }

    /// The pairs of a row and a number of `can_arise` that were not given.
    pub fn missing(&self, titles: &[&str], can_arise: &[&[u64]]) -> Vec<String> {
        let mut missing = Vec::new();
        for (row, numbers) in can_arise.iter().enumerate() {
            for number in numbers.iter().filter(|number| self.of(row, **number) == 0) {
                missing.push(format!("{} {number}", titles[row]));
            }
        }
        missing
    }

    /// Row, number and count of what was given beside `can_arise`.
    pub fn strange<'a>(
        &'a self,
        can_arise: &'a [&'a [u64]],
    ) -> impl Iterator<Item = (usize, u64, u64)> + 'a {
        self.given()
            .filter(|(row, number, _)| !can_arise[*row].contains(number))
    }
}

/// Accepted reverts, each count for revision 0 and for revision 1.
#[derive(Default)]
pub struct Reverts {
    all: [u64; 2],
    /// Those to a visit that was rolled back to before.
    again: [u64; 2],
    /// Those to a visit of the starting card.
    found: [u64; 2],
}

impl Reverts {
    pub fn add(&mut self, revision: usize, again: bool, found: bool) {
        self.all[revision] += 1;
        self.again[revision] += u64::from(again);
        self.found[revision] += u64::from(found);
    }

    /// Prints the sum, with how many cards were compared, and the counts; nothing where there
    /// was no revert.
    pub fn print(&self, compared: u64) {
        let sum: u64 = self.all.iter().sum();
        if sum == 0 {
            return;
        }
        println!("{sum} accepted reverts, {compared} cards compared");
        for revision in 0..2 {
            println!(
                "revision {revision}: {}, to a visit once more {}, to one of the starting card {}",
                self.all[revision], self.again[revision], self.found[revision]
            );
        }
    }

    /// The counts that can be above 0 and are not. On revision 0 a visit is gone once it was
    /// rolled back to, so there none is rolled back to once more.
    pub fn missing(&self) -> Vec<String> {
        let counts = [
            (
                "revision 0, a visit of the list",
                self.all[0] - self.found[0],
            ),
            (
                "revision 1, a visit of the list",
                self.all[1] - self.found[1],
            ),
            ("revision 1, a visit once more", self.again[1]),
            ("revision 0, a visit of the starting card", self.found[0]),
            ("revision 1, a visit of the starting card", self.found[1]),
        ];
        let none = counts.iter().filter(|(_, count)| *count == 0);
        none.map(|(words, _)| format!("a revert, {words}"))
            .collect()
    }
}

/// What an accepted visit names.
#[derive(Clone, Copy)]
pub enum Dated {
    /// None: no content is held.
    Never,
    /// The target's own region.
    Own,
    /// One before it.
    Older,
}

impl Dated {
    /// What the name given is to a target of this name.
    pub fn of(given: &Name, target: &Name) -> Dated {
        match *given == Name::default() {
            true => Dated::Never,
            false if given == target => Dated::Own,
            false => Dated::Older,
        }
    }
}

/// Accepted visits by what they name, each count for the active volume and for snapshots.
#[derive(Default)]
pub struct Visits([[u64; 3]; 2]);

impl Visits {
    pub fn add(&mut self, snapshot: bool, dated: Dated) {
        self.0[usize::from(snapshot)][dated as usize] += 1;
    }

    /// Each count, in words.
    fn counts(&self) -> impl Iterator<Item = (String, u64)> + '_ {
        let targets = ["the active volume", "a snapshot"].into_iter().enumerate();
        targets.flat_map(move |(row, target)| {
            let named = ["none", "its own region", "an older region"]
                .into_iter()
                .enumerate();
            named.map(move |(k, words)| (format!("{target}, {words}"), self.0[row][k]))
        })
    }

    /// Prints the counts; nothing where there was no visit.
    pub fn print(&self) {
        let sum: u64 = self.0.iter().flatten().sum();
        if sum == 0 {
            return;
        }
        println!("{sum} accepted visits");
        for (words, count) in self.counts() {
            println!("of {words}: {count}");
        }
    }

    /// The counts that are 0. Each can be above it.
    pub fn missing(&self) -> Vec<String> {
        let none = self.counts().filter(|(_, count)| *count == 0);
        none.map(|(words, _)| format!("a visit, {words}")).collect()
    }
}

/// Accepted spans by what they touch: reads of the active volume, reads of snapshots, writes. And
/// span writes by what they need.
#[derive(Default)]
pub struct Spans {
    touching: [[u64; 5]; 3],
    needing: [u64; 3],
}

impl Spans {
    /// Counts an accepted call, if it is one of a span.
    pub fn add(&mut self, call: &Call) {
        let (row, offset, length) = match call {
            Call::ReadSpan {
                target: Target::Active,
                offset,
                lent,
            } => (0, *offset, lent.len()),
            Call::ReadSpan { offset, lent, .. } => (1, *offset, lent.len()),
            Call::WriteSpan { offset, lent } => (2, *offset, lent.len()),
            _ => return,
        };
        let blocks = touched(offset, length);
        let counts = &mut self.touching[row];
        counts[blocks.clone().count().min(3)] += 1;
        if blocks.start / TABLE_ENTRIES < blocks.last().unwrap_or(0) / TABLE_ENTRIES {
            counts[4] += 1;
        }
    }

    /// Counts the need of a span write that touches some block.
    pub fn add_need(&mut self, call: &Call, need: &Need) {
        match call {
            Call::WriteSpan { lent, .. } if !lent.is_empty() => {}
            _ => return,
        }
        let kind = match need.need {
            0 => 0,
            some if some == need.free => 1,
            some if some == need.free + 1 => 2,
            _ => return,
        };
        self.needing[kind] += 1;
    }

    /// Each count, in words.
    fn counts(&self) -> Vec<(String, u64)> {
        let calls = [
            "a span read of the active volume",
            "a span read of a snapshot",
            "a span write",
        ];
        let touching = [
            "no block",
            "one block",
            "two blocks",
            "three blocks or more",
            "two groups or more",
        ];
        let needing = [
            "no block",
            "as many blocks as are free",
            "one block more than are free",
        ];
        let mut counts = Vec::new();
        for (call, row) in calls.into_iter().zip(self.touching) {
            for (words, count) in touching.into_iter().zip(row) {
                counts.push((format!("{call} that touches {words}"), count));
            }
        }
        for (words, count) in needing.into_iter().zip(self.needing) {
            counts.push((format!("a span write that needs {words}"), count));
        }
        counts
    }

    /// Prints the counts; nothing where there was no span.
    pub fn print(&self) {
        let each = self.touching.iter().map(|row| row[..4].iter().sum::<u64>());
        let sum: u64 = each.sum();
        if sum == 0 {
            return;
        }
        println!("{sum} accepted spans");
        for (words, count) in self.counts() {
            println!("{words}: {count}");
        }
    }

    /// The counts that are 0. Each can be above it.
    pub fn missing(&self) -> Vec<String> {
        let mut counts = self.counts();
        counts.retain(|(_, count)| *count == 0);
        counts.into_iter().map(|(words, _)| words).collect()
    }
}

/// Prints whether all of these that can arise did. That one did not is a fault where there were
/// enough lists.
pub fn all_met(what: &str, missing: &[String], lists: u64, enough: u64) -> Result<(), String> {
    if missing.is_empty() {
        println!("{what}: all that can arise did");
        return Ok(());
    }
    let words = format!("{what} not met: {}", missing.join("; "));
    if lists >= enough {
        return Err(words);
    }
    println!("{words}");
    Ok(())
}
