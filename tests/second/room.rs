//! A count of the blocks that a list of calls takes, made without looking at a card: what
//! was touched in each region says what a write needs, and where a block of a volume was written.

use crate::numbers::TABLE_ENTRIES;
use std::collections::BTreeSet;
use std::ops::Range;

#[derive(Clone)]
struct Region {
    alpha: u64,
    beta: u64,
    /// Logical blocks that have a data block in this region.
    logicals: BTreeSet<u64>,
    /// Groups of 128 logical blocks that have a table block in this region.
    groups: BTreeSet<u64>,
}

impl Region {
    /// Takes the blocks of a write: one for data, and in layout 2 one for a table before it, where
    /// the region has none yet.
    fn take(&mut self, logical: u64, layout: u64) {
        if !self.logicals.insert(logical) {
            return;
        }
        let new_table = self.groups.insert(logical / TABLE_ENTRIES) && layout == 2;
        self.beta += if new_table { 2 } else { 1 };
    }
}

pub struct Room {
    layout: u64,
    cost: u64,
    blocks: u64,
    /// Whether a region gone back to stays as it is, as on revision 1.
    stays: bool,
    regions: Vec<Region>,
}

fn opened(alpha: u64, cost: u64) -> Region {
    Region {
        alpha,
        beta: alpha + cost,
        logicals: BTreeSet::new(),
        groups: BTreeSet::new(),
    }
}

impl Room {
    /// The count right after a format.
    pub fn new(layout: u64, volume: u64, revision: u64, blocks: u64) -> Room {
        let cost = if layout == 1 {
            1 + volume / TABLE_ENTRIES + u64::from(volume % TABLE_ENTRIES > 0)
        } else {
            1
        };
        Room {
            layout,
            cost,
            blocks,
            stays: revision == 1,
            regions: vec![opened(0, cost)],
        }
    }

    fn last(&self) -> &Region {
        &self.regions[self.regions.len() - 1]
    }

    /// How many blocks the writes of these logical blocks take, one after the other.
    fn need(&self, logicals: Range<u64>) -> u64 {
        let mut region = self.last().clone();
        for logical in logicals {
            region.take(logical, self.layout);
        }
        region.beta - self.last().beta
    }

    pub fn has_for_writes(&self, logicals: Range<u64>) -> bool {
        self.last().beta + self.need(logicals) <= self.blocks
    }

    /// How many blocks are free.
    pub fn free(&self) -> u64 {
        self.blocks - self.last().beta
    }

    pub fn has_for_snap(&self) -> bool {
        self.last().beta + self.cost <= self.blocks
    }

    pub fn take_writes(&mut self, logicals: Range<u64>) {
        let last = self.regions.len() - 1;
        for logical in logicals {
            self.regions[last].take(logical, self.layout);
        }
    }

    pub fn take_snap(&mut self) {
        self.regions.push(opened(self.last().beta, self.cost));
    }

    /// Makes the k-th region the last one again, or opens one right after it.
    pub fn go_back(&mut self, k: usize) {
        self.regions.truncate(k + 1);
        if self.stays {
            self.take_snap();
        }
    }

    /// The last of the first k + 1 regions that has a data block of this logical block: where the
    /// k-th volume's version of it was written.
    pub fn written_in(&self, k: usize, logical: u64) -> Option<usize> {
        let mut regions = self.regions[..=k].iter();
        regions.rposition(|region| region.logicals.contains(&logical))
    }

    /// Alpha, beta and next of each region.
    pub fn marks(&self) -> Vec<(u64, u64, u64)> {
        let count = self.regions.len();
        let next = |k: usize| {
            if k + 1 < count {
                self.regions[k + 1].alpha
            } else {
                0
            }
        };
        (0..count)
            .map(|k| (self.regions[k].alpha, self.regions[k].beta, next(k)))
            .collect()
    }
}
