//! Cases worked out by hand from the papers: calls in order on a card, and what each of them
//! gives. No store has a part in what is said here. Those of document 02's revisions stand here,
//! those of visits and of spans in files of their own.

use crate::call::{Call, Said};
use crate::store::{shown, Answer, Logical, Name, Record, Target, NOTHING};

/// Calls in order on a card of so many blocks. What the blocks hold before does not matter.
pub struct Case {
    pub name: String,
    pub blocks: usize,
    pub steps: Vec<Step>,
}

/// A call, and what it gives.
pub struct Step {
    pub call: Call,
    answer: Answer,
    /// The lent block, or the lent bytes of a span, and the lent list at exit, empty where none is
    /// lent.
    block: Vec<u8>,
    records: Vec<Record>,
    /// The name that a visit gives; zeros for none, and for every other call.
    visit: Name,
    /// Numbers that are put on the card before the call, by block and byte.
    pub put: Vec<(usize, usize, u32)>,
    /// Blocks of the card after the call.
    stored: Vec<(usize, Vec<u8>)>,
    /// So many blocks at the card's start are as they were before the call.
    kept: usize,
}

const SIZE: usize = 512;
/// What lent memory holds before a read.
const BEFORE: u8 = 5;
/// How many records are lent to a list.
const LENT: usize = 258;

/// An accepted call.
fn accepted(call: Call) -> Step {
    let (block, records) = call.lent();
    Step {
        call,
        answer: Answer {
            number: 0,
            place: 0,
        },
        block,
        records,
        visit: Name::default(),
        put: Vec::new(),
        stored: Vec::new(),
        kept: 0,
    }
}

pub fn ream(layout: u64, volume: u64, revision: u64, name: &str) -> Step {
    accepted(Call::Ream {
        layout,
        volume,
        revision,
        name: name.as_bytes().to_vec(),
    })
}

pub fn write(logical: u64, fill: u8) -> Step {
    accepted(Call::Write {
        logical: Logical(logical),
        lent: vec![fill; SIZE],
    })
}

/// The active store by `*`, or the snapshot that has the name.
fn target(of: &str) -> Target {
    match of {
        "*" => Target::Active,
        _ => Target::Snapshot(of.as_bytes().to_vec()),
    }
}

/// A read of a visit, or of the active store by `*`, that gives 512 bytes of that value.
pub fn read(from: &str, logical: u64, byte: u8) -> Step {
    let call = Call::Read {
        target: target(from),
        logical: Logical(logical),
        lent: vec![BEFORE; SIZE],
    };
    Step {
        block: vec![byte; SIZE],
        ..accepted(call)
    }
}

/// A span read of a visit, or of the active store by `*`, that gives these bytes.
pub fn read_span(from: &str, offset: u64, bytes: Vec<u8>) -> Step {
    let call = Call::ReadSpan {
        target: target(from),
        offset,
        lent: vec![BEFORE; bytes.len()],
    };
    Step {
        block: bytes,
        ..accepted(call)
    }
}

pub fn write_span(offset: u64, bytes: Vec<u8>) -> Step {
    accepted(Call::WriteSpan {
        offset,
        lent: bytes,
    })
}

/// A visit of a snapshot, or of the active store by `*`, that gives the name, or none by an empty
/// text.
pub fn visit(of: &str, logical: u64, name: &str) -> Step {
    let mut step = accepted(Call::Visit {
        target: target(of),
        logical: Logical(logical),
    });
    step.visit[..name.len()].copy_from_slice(name.as_bytes());
    step
}

pub fn snap(name: &str) -> Step {
    accepted(Call::Snap {
        name: name.as_bytes().to_vec(),
    })
}

pub fn revert(name: &str) -> Step {
    accepted(Call::Revert {
        name: name.as_bytes().to_vec(),
    })
}

/// A list that gives these names with alpha, beta and next, and leaves the other records.
pub fn list(given: &[(&str, u64, u64, u64)]) -> Step {
    let mut step = accepted(Call::List {
        lent: vec![NOTHING; LENT],
    });
    for (record, (name, alpha, beta, next)) in step.records.iter_mut().zip(given) {
        record.name[..name.len()].copy_from_slice(name.as_bytes());
        (record.alpha, record.beta, record.next) = (*alpha, *beta, *next);
    }
    step
}

pub fn check() -> Step {
    accepted(Call::Check)
}

impl Step {
    /// The call is refused, place 0.
    pub fn refused(self, number: u64) -> Step {
        self.refused_at(number, 0)
    }

    /// The call is refused.
    pub fn refused_at(mut self, number: u64, place: u64) -> Step {
        self.answer = Answer { number, place };
        self.block = self.call.lent().0;
        self.visit = Name::default();
        self
    }

    /// The number is put on the card before the call.
    pub fn after(mut self, block: usize, byte: usize, number: u32) -> Step {
        self.put.push((block, byte, number));
        self
    }

    /// The block holds these bytes afterwards.
    pub fn stores(mut self, block: usize, bytes: Vec<u8>) -> Step {
        self.stored.push((block, bytes));
        self
    }

    /// So many blocks stay as they were.
    pub fn keeps(mut self, blocks: usize) -> Step {
        self.kept = blocks;
        self
    }

    /// Puts on the card what is put there before the call.
    pub fn prepare(&self, card: &mut [u8]) {
        for (block, byte, number) in &self.put {
            let at = block * SIZE + byte;
            card[at..at + 4].copy_from_slice(&number.to_le_bytes());
        }
    }

    /// Holds what was said, and the card before and after the call, against the step.
    pub fn compare(&self, said: &Said, before: &[u8], after: &[u8]) -> Result<(), String> {
        if said.answer != self.answer {
            return Err(format!("{:?} and not {:?}", said.answer, self.answer));
        }
        if said.block != self.block {
            return Err("the lent bytes are others".to_string());
        }
        if said.records != self.records {
            let records = said.records.iter().zip(&self.records);
            let at = records.take_while(|pair| pair.0 == pair.1).count();
            return Err(format!("record {at} is another"));
        }
        if said.visit != self.visit {
            let names = (shown(&said.visit), shown(&self.visit));
            return Err(format!("the name {} and not {}", names.0, names.1));
        }
        let kept = match self.answer.number {
            0 => self.kept * SIZE,
            _ => before.len(),
        };
        if before[..kept] != after[..kept] {
            return Err("the card has changed".to_string());
        }
        for (block, bytes) in &self.stored {
            let stored = &after[block * SIZE..(block + 1) * SIZE];
            if let Some(at) = (0..SIZE).find(|at| stored[*at] != bytes[*at]) {
                return Err(format!("byte {at} of block {block} is {}", stored[at]));
            }
        }
        Ok(())
    }
}

/// A descriptor block: layout, L, alpha, beta and next; name; revision; the first of Phi.
pub fn descriptor(numbers: [u32; 5], name: &str, revision: u8, phi: &[u32]) -> Vec<u8> {
    let mut block = b"snap".to_vec();
    for number in numbers {
        block.extend_from_slice(&number.to_le_bytes());
    }
    block.extend_from_slice(name.as_bytes());
    block.resize(40, 0);
    block.extend_from_slice(&[revision, 0, 0, 0]);
    block.resize(64, 0);
    for entry in phi {
        block.extend_from_slice(&entry.to_le_bytes());
    }
    block.resize(SIZE, 0);
    block
}

/// A table block with one entry set, to a number below 256.
fn table(j: usize, entry: u8) -> Vec<u8> {
    let mut block = vec![0; SIZE];
    block[4 * j] = entry;
    block
}

/// All cases.
pub fn all() -> Vec<Case> {
    let mut cases = Vec::new();
    let mut case = |name: &str, blocks: usize, steps: Vec<Step>| {
        cases.push(Case {
            name: name.to_string(),
            blocks,
            steps,
        });
    };
    case("area of one block", 1, no_area());
    case("ream, revisions", 2, reams());
    case("revert, refusals", 8, reverts());
    case("example, layout 1, revision 0", 16, example_1(0));
    case("example, layout 1, revision 1", 16, example_1(1));
    case("example, layout 2, revision 0", 16, example_2(0));
    case("example, layout 2, revision 1", 16, example_2(1));
    case("no room, layout 1, N 4", 4, smallest_1());
    case("no room, layout 2, N 2", 2, smallest_2());
    case("full card, revision 0", 4, full(0));
    case("full card, revision 1", 4, full(1));
    case("the last block is data", 6, last_block());
    case("three visits, layout 1", 32, three_1());
    case("three visits, layout 2", 32, three_2());
    case("names of every length", 8, names());
    case("255 visits, layout 1, N 512", 512, most(1, 2));
    case("255 visits, layout 2, N 256", 256, most(2, 1));
    case("255 visits, layout 2, N 300", 300, most(2, 1));
    cases
}

/// 1 stands before all others.
fn no_area() -> Vec<Step> {
    vec![
        ream(2, 9, 2, "fs").refused(1),
        ream(0, 0, u64::from(u32::MAX), "").refused(1),
        ream(2, 9, 1, "fs").refused(1),
        revert("").refused(1),
        visit("*", 0, "").refused(1),
        visit("", 9, "").refused(1),
    ]
}

/// 17 on a card of two blocks: after 2 and 3, before 4 and 5. In layout 1 an L of 129 has two
/// table blocks, so c is 3.
fn reams() -> Vec<Step> {
    let mut steps = Vec::new();
    for revision in [
        2,
        3,
        256,
        257,
        65_536,
        1 << 24,
        1 << 31,
        u64::from(u32::MAX),
    ] {
        steps.push(ream(2, 9, revision, "fs").refused(17));
        steps.push(ream(1, 9, revision, "fs").refused(17));
        steps.push(ream(0, 9, revision, "fs").refused(2));
        steps.push(ream(3, 0, revision, "").refused(2));
        steps.push(ream(2, 0, revision, "fs").refused(3));
        steps.push(ream(1, 14_337, revision, "").refused(3));
        steps.push(ream(2, 9, revision, "").refused(17));
        steps.push(ream(2, 9, revision, "FS").refused(17));
        steps.push(ream(2, 9, revision, "abcdefghijklmnopq").refused(17));
        steps.push(ream(1, 129, revision, "fs").refused(17));
        steps.push(ream(1, 129, revision, "").refused(17));
    }
    for revision in [0, 1] {
        steps.push(ream(1, 129, revision, "").refused(4));
        steps.push(ream(1, 129, revision, "fs").refused(5));
        let first = descriptor([2, 9, 0, 1, 0], "fs", revision as u8, &[]);
        steps.push(ream(2, 9, revision, "fs").stores(0, first.clone()));
        steps.push(list(&[("fs", 0, 1, 0)]));
        steps.push(ream(1, 1, 2, "other").refused(17).stores(0, first));
        let first = descriptor([1, 128, 0, 2, 0], "fs", revision as u8, &[]);
        let ream = ream(1, 128, revision, "fs").stores(0, first);
        steps.push(ream.stores(1, vec![0; SIZE]));
        steps.push(check());
    }
    steps
}

/// The ladder of revert is the same on revision 1: 4, 6, 7. An area of zeros, or of other bytes
/// without the mark, has no descriptor at 0.
fn reverts() -> Vec<Step> {
    let visit = [("a", 0, 1, 1), ("fs", 1, 2, 0)];
    vec![
        revert("").refused(4),
        revert("MON").refused(4),
        revert("mon").refused(6),
        ream(2, 9, 1, "fs"),
        revert("mon").refused(7),
        revert("fs").refused(7),
        snap("a"),
        revert("A").refused(4),
        revert("b").refused(7),
        revert("fs").refused(7),
        list(&visit),
        revert("a").keeps(2),
        revert("fs").refused(7),
        list(&visit),
    ]
}

/// 01's example in layout 1, with a second rollback. L 200 has two table blocks and c is 3: the
/// visit is descriptor 0, tables 1 and 2, data 3; the active region is descriptor 4, tables 5
/// and 6, data 7.
fn example_1(revision: u8) -> Vec<Step> {
    let mut steps = vec![
        ream(1, 200, u64::from(revision), "fs"),
        write(5, 7),
        snap("mon"),
        write(5, 9),
        read("mon", 5, 7),
        read("*", 5, 9),
        list(&[("mon", 0, 4, 4), ("fs", 4, 8, 0)]),
    ];
    if revision == 0 {
        steps.push(revert("mon"));
        steps.push(read("*", 5, 7));
        steps.push(list(&[("fs", 0, 4, 0)]));
        steps.push(revert("mon").refused(7));
        steps.push(read("mon", 5, 7).refused(7));
        return steps;
    }
    let visit = descriptor([1, 200, 0, 4, 4], "mon", 1, &[]);
    let active = descriptor([1, 200, 4, 7, 0], "fs", 1, &[]);
    let rolled_back = || {
        let revert = revert("mon").keeps(4).stores(0, visit.clone());
        let revert = revert.stores(1, table(5, 3)).stores(2, vec![0; SIZE]);
        let revert = revert.stores(3, vec![7; SIZE]).stores(4, active.clone());
        revert.stores(5, table(5, 3)).stores(6, vec![0; SIZE])
    };
    let listed = || list(&[("mon", 0, 4, 4), ("fs", 4, 7, 0)]);
    steps.extend([rolled_back(), read("*", 5, 7), listed()]);
    steps.extend([read("mon", 5, 7), check()]);
    // The second rollback, after another write, and a third one right after it.
    steps.extend([write(5, 8), read("*", 5, 8), read("mon", 5, 7)]);
    steps.push(list(&[("mon", 0, 4, 4), ("fs", 4, 8, 0)]));
    steps.extend([rolled_back(), read("*", 5, 7), listed()]);
    steps.extend([rolled_back().keeps(7), read("*", 5, 7), listed()]);
    steps.extend([snap("mon").refused(12), check()]);
    steps
}

/// The same in layout 2, where c is 1: the visit is descriptor 0, table 1, data 2; the active
/// region is descriptor 3, table 4, data 5.
fn example_2(revision: u8) -> Vec<Step> {
    let mut steps = vec![
        ream(2, 200, u64::from(revision), "fs"),
        write(5, 7),
        snap("mon"),
        write(5, 9),
        read("mon", 5, 7),
        read("*", 5, 9),
        list(&[("mon", 0, 3, 3), ("fs", 3, 6, 0)]),
    ];
    if revision == 0 {
        steps.push(revert("mon"));
        steps.push(read("*", 5, 7));
        steps.push(list(&[("fs", 0, 3, 0)]));
        steps.push(revert("mon").refused(7));
        steps.push(read("mon", 5, 7).refused(7));
        return steps;
    }
    let visit = descriptor([2, 200, 0, 3, 3], "mon", 1, &[1]);
    let active = descriptor([2, 200, 3, 4, 0], "fs", 1, &[1]);
    let rolled_back = || {
        let revert = revert("mon").keeps(3).stores(0, visit.clone());
        let revert = revert.stores(1, table(5, 2)).stores(2, vec![7; SIZE]);
        revert.stores(3, active.clone())
    };
    let listed = || list(&[("mon", 0, 3, 3), ("fs", 3, 4, 0)]);
    steps.extend([rolled_back(), read("*", 5, 7), listed()]);
    steps.extend([read("mon", 5, 7), check()]);
    // The second rollback, after another write, and a third one right after it.
    steps.extend([write(5, 8), read("*", 5, 8), read("mon", 5, 7)]);
    steps.push(list(&[("mon", 0, 3, 3), ("fs", 3, 6, 0)]));
    steps.extend([rolled_back(), read("*", 5, 7), listed()]);
    steps.extend([rolled_back().keeps(4), read("*", 5, 7), listed()]);
    steps.extend([snap("mon").refused(12), check()]);
    steps
}

/// After one snap beta is N: no call has room, and a rollback needs none. L 128 has one table
/// block, so c is 2.
fn smallest_1() -> Vec<Step> {
    let listed = || list(&[("mon", 0, 2, 2), ("fs", 2, 4, 0)]);
    vec![
        ream(1, 128, 1, "fs"),
        snap("mon"),
        listed(),
        snap("tue").refused(11),
        write(0, 1).refused(11),
        revert("mon").keeps(4),
        listed(),
        read("*", 0, 0),
        revert("mon").keeps(4),
        listed(),
        snap("tue").refused(11),
        snap("mon").refused(12),
        write(0, 1).refused(11),
        check(),
    ]
}

/// The same in layout 2, where c is 1.
fn smallest_2() -> Vec<Step> {
    let visit = descriptor([2, 14_336, 0, 1, 1], "mon", 1, &[]);
    let active = descriptor([2, 14_336, 1, 2, 0], "fs", 1, &[]);
    let listed = || list(&[("mon", 0, 1, 1), ("fs", 1, 2, 0)]);
    vec![
        ream(2, 14_336, 1, "fs"),
        snap("mon").stores(0, visit).stores(1, active),
        listed(),
        snap("tue").refused(11),
        write(0, 1).refused(11),
        revert("mon").keeps(2),
        listed(),
        read("*", 14_335, 0),
        revert("mon").keeps(2),
        listed(),
        snap("tue").refused(11),
        snap("mon").refused(12),
        write(0, 1).refused(11),
        check(),
    ]
}

/// Table 1 and data 2 stand before the snap, after which beta is N. On revision 0 the rollback
/// gives block 3 back and data 2 is overwritten; on revision 1 the visit keeps its block.
fn full(revision: u64) -> Vec<Step> {
    let listed = || list(&[("a", 0, 3, 3), ("fs", 3, 4, 0)]);
    let mut steps = vec![
        ream(2, 1, revision, "fs"),
        write(0, 7),
        snap("a"),
        listed(),
        write(0, 9).refused(11),
    ];
    if revision == 0 {
        steps.extend([revert("a"), list(&[("fs", 0, 3, 0)])]);
        steps.extend([write(0, 9), read("*", 0, 9)]);
        steps.extend([snap("a"), listed(), read("a", 0, 9)]);
    } else {
        steps.extend([revert("a").keeps(4), listed(), read("*", 0, 7)]);
        steps.extend([write(0, 9).refused(11), snap("b").refused(11)]);
        steps.extend([snap("a").refused(12), listed(), read("a", 0, 7)]);
    }
    steps.push(check());
    steps
}

/// The active descriptor stands at the visit's beta, with a table and data of its own up to N:
/// its name is kept, its table is the visit's again.
fn last_block() -> Vec<Step> {
    let visit = descriptor([1, 128, 0, 3, 3], "mon", 1, &[]);
    let before = descriptor([1, 128, 3, 6, 0], "fs", 1, &[]);
    let after = descriptor([1, 128, 3, 5, 0], "fs", 1, &[]);
    let rolled_back = || {
        let revert = revert("mon").keeps(3).stores(0, visit.clone());
        revert.stores(3, after.clone()).stores(4, table(0, 2))
    };
    vec![
        ream(1, 128, 1, "fs"),
        write(0, 7),
        snap("mon"),
        write(0, 9).stores(3, before).stores(4, table(0, 5)),
        list(&[("mon", 0, 3, 3), ("fs", 3, 6, 0)]),
        write(1, 9).refused(11),
        rolled_back(),
        list(&[("mon", 0, 3, 3), ("fs", 3, 5, 0)]),
        read("*", 0, 7),
        write(1, 8).stores(5, vec![8; SIZE]),
        read("*", 0, 7),
        rolled_back(),
        read("*", 1, 0),
        rolled_back().keeps(5),
        list(&[("mon", 0, 3, 3), ("fs", 3, 5, 0)]),
        check(),
    ]
}

/// Visits a, b and c; then twice to a, once more after a write and once after a snap. L 200 has
/// two table blocks and c is 3: regions 0 to 3, 4 to 7, 8 to 11, and 12 up to beta.
fn three_1() -> Vec<Step> {
    let visit = descriptor([1, 200, 0, 4, 4], "a", 1, &[]);
    let active = descriptor([1, 200, 4, 7, 0], "fs", 1, &[]);
    let rolled_back = || {
        let revert = revert("a").keeps(4).stores(0, visit.clone());
        let revert = revert.stores(4, active.clone());
        revert.stores(5, table(5, 3)).stores(6, vec![0; SIZE])
    };
    let listed = || list(&[("a", 0, 4, 4), ("fs", 4, 7, 0)]);
    let mut steps = vec![ream(1, 200, 1, "fs"), write(5, 1), snap("a")];
    steps.extend([
        write(5, 2),
        snap("b"),
        write(130, 3),
        snap("c"),
        write(5, 4),
    ]);
    let c = [("a", 0, 4, 4), ("b", 4, 8, 8), ("c", 8, 12, 12)];
    steps.push(list(&[c[0], c[1], c[2], ("fs", 12, 16, 0)]));
    steps.push(read("b", 5, 2));
    steps.extend([rolled_back(), listed(), read("*", 5, 1), read("*", 130, 0)]);
    steps.extend([read("a", 5, 1), read("b", 5, 2).refused(7)]);
    steps.extend([revert("b").refused(7), revert("c").refused(7)]);
    steps.extend([rolled_back().keeps(7), listed(), check()]);
    steps.extend([write(130, 6).stores(6, table(2, 7)), read("*", 130, 6)]);
    steps.extend([rolled_back(), listed(), read("*", 130, 0)]);
    // The name b is free again, a is not.
    steps.extend([snap("a").refused(12), snap("b")]);
    steps.push(list(&[("a", 0, 4, 4), ("b", 4, 7, 7), ("fs", 7, 10, 0)]));
    steps.extend([rolled_back(), listed(), read("*", 5, 1), check()]);
    steps
}

/// The same in layout 2, where c is 1: regions 0 to 2, 3 to 5, 6 to 8, and 9 up to beta. The
/// rollback finds the descriptor of b where the new one is to stand.
fn three_2() -> Vec<Step> {
    let visit = descriptor([2, 200, 0, 3, 3], "a", 1, &[1]);
    let active = descriptor([2, 200, 3, 4, 0], "fs", 1, &[1]);
    let rolled_back = || {
        let revert = revert("a").keeps(3).stores(0, visit.clone());
        revert.stores(3, active.clone())
    };
    let listed = || list(&[("a", 0, 3, 3), ("fs", 3, 4, 0)]);
    let b = descriptor([2, 200, 3, 6, 6], "b", 1, &[4]);
    let c = descriptor([2, 200, 6, 9, 9], "c", 1, &[4, 7]);
    let last = descriptor([2, 200, 9, 12, 0], "fs", 1, &[10, 7]);
    let mut steps = vec![ream(2, 200, 1, "fs"), write(5, 1), snap("a")];
    steps.extend([write(5, 2), snap("b"), write(130, 3), snap("c")]);
    let write_4 = write(5, 4).stores(3, b).stores(6, c).stores(9, last);
    steps.push(write_4);
    let c = [("a", 0, 3, 3), ("b", 3, 6, 6), ("c", 6, 9, 9)];
    steps.push(list(&[c[0], c[1], c[2], ("fs", 9, 12, 0)]));
    steps.push(read("b", 5, 2));
    steps.extend([rolled_back(), listed(), read("*", 5, 1), read("*", 130, 0)]);
    steps.extend([read("a", 5, 1), read("b", 5, 2).refused(7)]);
    steps.extend([revert("b").refused(7), revert("c").refused(7)]);
    steps.extend([rolled_back().keeps(4), listed(), check()]);
    steps.extend([write(130, 6).stores(4, table(2, 5)), read("*", 130, 6)]);
    steps.extend([rolled_back(), listed(), read("*", 130, 0)]);
    // The name b is free again, a is not.
    steps.extend([snap("a").refused(12), snap("b")]);
    steps.push(list(&[("a", 0, 3, 3), ("b", 3, 4, 4), ("fs", 4, 5, 0)]));
    steps.extend([rolled_back(), listed(), read("*", 5, 1), check()]);
    steps
}

/// The new descriptor has all sixteen bytes of the active name and none of the visit's.
fn names() -> Vec<Step> {
    let (short, long) = ("f", "abcdefghijklmnop");
    let mut steps = Vec::new();
    for (active, visit) in [(short, long), (long, short)] {
        let frozen = descriptor([2, 9, 0, 1, 1], visit, 1, &[]);
        let new = descriptor([2, 9, 1, 2, 0], active, 1, &[]);
        let rolled_back = revert(visit).stores(0, frozen).stores(1, new);
        steps.extend([ream(2, 9, 1, active), snap(visit), write(3, 3), rolled_back]);
        steps.push(list(&[(visit, 0, 1, 1), (active, 1, 2, 0)]));
        steps.push(read("*", 3, 0));
    }
    steps
}

/// 255 visits of c blocks each, the active descriptor after them: 13 comes before 11, and a rollback
/// is accepted although there are 256 descriptors, to the last visit and to an earlier one.
fn most(layout: u64, c: usize) -> Vec<Step> {
    let cost = c as u64;
    let names: Vec<String> = (0..255).map(|k| format!("s{k}")).collect();
    let listed = |count: u64| {
        let mut given: Vec<(&str, u64, u64, u64)> = Vec::new();
        for (name, k) in names.iter().zip(0..count) {
            given.push((name, k * cost, (k + 1) * cost, (k + 1) * cost));
        }
        given.push(("fs", count * cost, (count + 1) * cost, 0));
        list(&given)
    };
    let mut steps = vec![ream(layout, 9, 1, "fs")];
    steps.extend(names.iter().map(|name| snap(name)));
    steps.extend([listed(255), snap("more").refused(13)]);
    steps.extend([revert("s254").keeps(256 * c), listed(255)]);
    steps.extend([revert("s254").keeps(256 * c), listed(255), check()]);
    steps.push(snap("more").refused(13));
    steps.extend([revert("s7").keeps(8 * c), listed(8), read("*", 0, 0)]);
    steps.extend([
        revert("s8").refused(7),
        revert("s7").keeps(9 * c),
        listed(8),
    ]);
    steps.extend([snap("s8"), listed(9), snap("s7").refused(12), check()]);
    steps
}
