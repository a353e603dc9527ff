//! The ledger: an ordered list of named volumes and an active one. It knows nothing of the
//! card; whether a call finds room is told to it.

use crate::call::Call;
use crate::numbers::{BLOCK, MOST_SNAPSHOTS, NAME_SIZE};
use crate::store::{Logical, Target};
use std::ops::Range;

/// One run of L times 512 bytes.
pub type Volume = Vec<u8>;

pub struct Ledger {
    frozen: Vec<(Vec<u8>, Volume)>,
    name: Vec<u8>,
    active: Volume,
    /// Whether a volume gone back to stays in the list, as on revision 1.
    stays: bool,
}

/// What the ledger says of a call.
pub enum Word {
    /// Refused with this number.
    Refused(u64),
    /// Accepted.
    Done,
    /// An accepted read, of a block or of a span, and what it gives.
    Bytes(Vec<u8>),
    /// A format that the ledger does not follow.
    Unknown,
}

fn is_name(text: &[u8]) -> bool {
    let alphabet = b"abcdefghijklmnopqrstuvwxyz0123456789.-";
    (1..=NAME_SIZE).contains(&text.len()) && text.iter().all(|byte| alphabet.contains(byte))
}

/// Whether the target is the active volume, or is given by a name.
fn target_is_named(target: &Target) -> bool {
    match target {
        Target::Active => true,
        Target::Snapshot(name) => is_name(name),
    }
}

impl Ledger {
    /// A new active volume of so many blocks of zeros.
    pub fn new(name: &[u8], blocks: u64, revision: u64) -> Ledger {
        let active = vec![0; blocks as usize * BLOCK];
        Ledger {
            frozen: Vec::new(),
            name: name.to_vec(),
            active,
            stays: revision == 1,
        }
    }

    /// The names in order, the active one last.
    pub fn names(&self) -> Vec<Vec<u8>> {
        let mut names: Vec<Vec<u8>> = self.frozen.iter().map(|pair| pair.0.clone()).collect();
        names.push(self.name.clone());
        names
    }

    /// The position of a frozen volume.
    pub fn position(&self, name: &[u8]) -> Option<usize> {
        self.frozen.iter().position(|pair| pair.0 == name)
    }

    /// One step: what is said of the call, and the ledger after it.
    pub fn step(&mut self, call: &Call, room: bool) -> Word {
        match call {
            Call::Ream { .. } => Word::Unknown,
            Call::Read {
                target,
                logical,
                lent,
            } => {
                if !target_is_named(target) {
                    return Word::Refused(4);
                }
                if lent.len() != BLOCK {
                    return Word::Refused(9);
                }
                let Some(volume) = self.volume(target) else {
                    return Word::Refused(7);
                };
                match self.block(*logical) {
                    Some(part) => Word::Bytes(volume[part].to_vec()),
                    None => Word::Refused(8),
                }
            }
            Call::ReadSpan {
                target,
                offset,
                lent,
            } => {
                if !target_is_named(target) {
                    return Word::Refused(4);
                }
                let Some(volume) = self.volume(target) else {
                    return Word::Refused(7);
                };
                match self.part(*offset, lent.len()) {
                    Some(part) => Word::Bytes(volume[part].to_vec()),
                    None => Word::Refused(16),
                }
            }
            Call::Write { logical, lent } => {
                if lent.len() != BLOCK {
                    return Word::Refused(9);
                }
                let Some(part) = self.block(*logical) else {
                    return Word::Refused(8);
                };
                self.patch(part, lent, room)
            }
            Call::WriteSpan { offset, lent } => match self.part(*offset, lent.len()) {
                Some(part) => self.patch(part, lent, room),
                None => Word::Refused(16),
            },
            Call::Snap { name } => {
                if !is_name(name) {
                    return Word::Refused(4);
                }
                if self.names().contains(name) {
                    return Word::Refused(12);
                }
                if self.frozen.len() == MOST_SNAPSHOTS {
                    return Word::Refused(13);
                }
                if !room {
                    return Word::Refused(11);
                }
                self.frozen.push((name.clone(), self.active.clone()));
                Word::Done
            }
            Call::Revert { name } => {
                if !is_name(name) {
                    return Word::Refused(4);
                }
                match self.position(name) {
                    Some(k) => {
                        self.active = self.frozen[k].1.clone();
                        self.frozen.truncate(if self.stays { k + 1 } else { k });
                        Word::Done
                    }
                    None => Word::Refused(7),
                }
            }
            Call::List { lent } => {
                if lent.len() < self.names().len() {
                    Word::Refused(14)
                } else {
                    Word::Done
                }
            }
            Call::Check => Word::Done,
            Call::Visit { target, logical } => match self.refusal(target, *logical) {
                Some(number) => Word::Refused(number),
                None => Word::Done,
            },
        }
    }

    /// The refusal of a visit. What it names is for the origins.
    fn refusal(&self, target: &Target, logical: Logical) -> Option<u64> {
        if !target_is_named(target) {
            return Some(4);
        }
        if self.volume(target).is_none() {
            return Some(7);
        }
        self.block(logical).is_none().then_some(8)
    }

    /// The volume of a target.
    fn volume(&self, target: &Target) -> Option<&Volume> {
        match target {
            Target::Active => Some(&self.active),
            Target::Snapshot(name) => self.position(name).map(|k| &self.frozen[k].1),
        }
    }

    /// So many bytes of a run from the offset on, where it has them all.
    fn part(&self, offset: u64, length: usize) -> Option<Range<usize>> {
        let start = usize::try_from(offset).ok()?;
        let end = start.checked_add(length)?;
        (end <= self.active.len()).then_some(start..end)
    }

    /// A block's part of a run.
    fn block(&self, logical: Logical) -> Option<Range<usize>> {
        let offset = logical.0.checked_mul(BLOCK as u64)?;
        self.part(offset, BLOCK)
    }

    /// Puts bytes in a part of the active run, if there is room.
    fn patch(&mut self, part: Range<usize>, bytes: &[u8], room: bool) -> Word {
        if !room {
            return Word::Refused(11);
        }
        self.active[part].copy_from_slice(bytes);
        Word::Done
    }
}
