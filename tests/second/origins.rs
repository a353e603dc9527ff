//! The origins: for each named volume and each of its blocks, the region in which the version that
//! a read gives was last written. They stand beside the ledger and know nothing of the card
//! either: a region is its place among the regions, and its name is the one that it has now.

use crate::call::Call;
use crate::extent::touched;
use crate::rng::Rng;
use crate::store::{padded, Logical, Name, Target};

/// About how many visits are held against the origins after a revert, and at the end of a list,
/// where it is one of every target at least.
pub const AFTER_REVERT: u64 = 20;
pub const AT_END: u64 = 300;

/// For each block none, where it was never written, or the place of a region, at most 255.
type Blocks = Vec<Option<u8>>;

#[derive(Clone)]
pub struct Origins {
    /// The frozen volumes in order, by name. The k-th one froze the k-th region.
    frozen: Vec<(Vec<u8>, Blocks)>,
    name: Vec<u8>,
    active: Blocks,
    /// Whether a volume gone back to stays in the list, as on revision 1.
    stays: bool,
}

impl Origins {
    /// After a format no block has been written.
    pub fn new(name: &[u8], blocks: u64, revision: u64) -> Origins {
        Origins {
            frozen: Vec::new(),
            name: name.to_vec(),
            active: vec![None; blocks as usize],
            stays: revision == 1,
        }
    }

    /// The origins after a call that was accepted.
    pub fn step(&mut self, call: &Call) -> Result<(), String> {
        match call {
            Call::Ream { .. } => return Err("a format begins new origins".to_string()),
            // The active region comes after those of the frozen volumes.
            Call::Write { logical, .. } => {
                self.active[logical.0 as usize] = Some(self.frozen.len() as u8);
            }
            Call::WriteSpan { offset, lent } => {
                for logical in touched(*offset, lent.len()) {
                    self.active[logical as usize] = Some(self.frozen.len() as u8);
                }
            }
            Call::Snap { name } => self.frozen.push((name.clone(), self.active.clone())),
            Call::Revert { name } => {
                let position = self.position(name).ok_or("no such origins")?;
                self.active = self.frozen[position].1.clone();
                self.frozen.truncate(position + usize::from(self.stays));
            }
            Call::Read { .. }
            | Call::ReadSpan { .. }
            | Call::List { .. }
            | Call::Check
            | Call::Visit { .. } => {}
        }
        Ok(())
    }

    fn position(&self, name: &[u8]) -> Option<usize> {
        self.frozen.iter().position(|pair| pair.0 == name)
    }

    /// About `most` visits, shared out among the targets, some of them left out where they are
    /// more: of all blocks where these are so few, else mostly of those given, which are in use.
    pub fn visits(&self, rng: &mut Rng, used: &[u64], most: u64) -> Vec<(Target, Logical)> {
        let volume = self.active.len() as u64;
        let snapshots = self.frozen.len() as u64;
        let each = (most / (snapshots + 1)).clamp(1, volume);
        let mut targets = vec![Target::Active];
        for (name, _) in &self.frozen {
            if rng.below(snapshots) < most {
                targets.push(Target::Snapshot(name.clone()));
            }
        }
        let mut visits = Vec::new();
        for target in targets {
            for k in 0..each {
                let block = match rng.below(4) {
                    _ if each == volume => k,
                    0 => rng.below(volume),
                    _ => *rng.pick(used) % volume,
                };
                visits.push((target.clone(), Logical(block)));
            }
        }
        visits
    }

    /// The name that a visit of the target gives, zeros for none.
    pub fn name(&self, target: &Target, logical: Logical) -> Result<Name, String> {
        let blocks = match target {
            Target::Active => &self.active,
            Target::Snapshot(name) => {
                let position = self.position(name).ok_or("no such origins")?;
                &self.frozen[position].1
            }
        };
        let place = blocks.get(logical.0 as usize).ok_or("no such block")?;
        Ok(
            match place.map(|place| self.frozen.get(usize::from(place))) {
                None => Name::default(),
                Some(Some(pair)) => padded(&pair.0),
                Some(None) => padded(&self.name),
            },
        )
    }
}
