//! The C boundary of the library, and the own store behind the same boundary.

use crate::call::{carry_out, Call, Said};
use crate::declared::*;
use crate::lent::{noise, Lent};
use crate::numbers::{MOST_DESCRIPTORS, NAME_SIZE};
use crate::rng::Rng;
use crate::store::{
    self, number_at, padded, store_number, unpadded, Logical, Name, Record, Target,
};

/// A call's arguments and the memory lent to it besides the card.
#[derive(Clone, PartialEq, Eq)]
pub enum Ask {
    Ream {
        layout: u32,
        volume: u32,
        revision: u32,
        name: Lent,
    },
    Read {
        snapshot: u32,
        name: Lent,
        block: u32,
        out: Lent,
    },
    Write {
        block: u32,
        bytes: Lent,
    },
    Snap {
        name: Lent,
    },
    Revert {
        name: Lent,
    },
    List {
        records: Lent,
    },
    Check,
    Visit {
        snapshot: u32,
        name: Lent,
        block: u32,
        /// Sixteen bytes: a part of the answer, which every call stores.
        visit: Lent,
    },
    ReadSpan {
        snapshot: u32,
        name: Lent,
        offset: u64,
        out: Lent,
    },
    WriteSpan {
        offset: u64,
        bytes: Lent,
    },
}

/// Number and place.
pub type Answer = (u32, u32);

impl Ask {
    /// The call as the own store takes it.
    pub fn call(&self) -> Call {
        match self {
            Ask::Ream {
                layout,
                volume,
                revision,
                name,
            } => Call::Ream {
                layout: u64::from(*layout),
                volume: u64::from(*volume),
                revision: u64::from(*revision),
                name: text_of(name),
            },
            Ask::Read {
                snapshot,
                name,
                block,
                out,
            } => Call::Read {
                target: target_of(*snapshot, name),
                logical: Logical(u64::from(*block)),
                lent: out.part().to_vec(),
            },
            Ask::Write { block, bytes } => Call::Write {
                logical: Logical(u64::from(*block)),
                lent: bytes.part().to_vec(),
            },
            Ask::Snap { name } => Call::Snap {
                name: text_of(name),
            },
            Ask::Revert { name } => Call::Revert {
                name: text_of(name),
            },
            Ask::List { records } => Call::List {
                lent: records
                    .part()
                    .chunks_exact(RECORD_SIZE)
                    .map(record_of)
                    .collect(),
            },
            Ask::Check => Call::Check,
            Ask::Visit {
                snapshot,
                name,
                block,
                ..
            } => Call::Visit {
                target: target_of(*snapshot, name),
                logical: Logical(u64::from(*block)),
            },
            Ask::ReadSpan {
                snapshot,
                name,
                offset,
                out,
            } => Call::ReadSpan {
                target: target_of(*snapshot, name),
                offset: *offset,
                lent: out.part().to_vec(),
            },
            Ask::WriteSpan { offset, bytes } => Call::WriteSpan {
                offset: *offset,
                lent: bytes.part().to_vec(),
            },
        }
    }

    /// The call of the own store as the library takes it.
    pub fn of(call: &Call, rng: &mut Rng) -> Ask {
        match call {
            Call::Ream {
                layout,
                volume,
                revision,
                name,
            } => Ask::Ream {
                layout: *layout as u32,
                volume: *volume as u32,
                revision: *revision as u32,
                name: name_of(name, rng),
            },
            Call::Read {
                target,
                logical,
                lent,
            } => {
                let (snapshot, name) = lent_target(target, rng);
                Ask::Read {
                    snapshot,
                    name,
                    block: logical.0 as u32,
                    out: Lent::new(rng, lent, 40),
                }
            }
            Call::Write { logical, lent } => Ask::Write {
                block: logical.0 as u32,
                bytes: Lent::new(rng, lent, 40),
            },
            Call::Snap { name } => Ask::Snap {
                name: name_of(name, rng),
            },
            Call::Revert { name } => Ask::Revert {
                name: name_of(name, rng),
            },
            Call::List { lent } => {
                let mut records = vec![0; lent.len() * RECORD_SIZE];
                for (bytes, record) in records.chunks_exact_mut(RECORD_SIZE).zip(lent) {
                    store_record(bytes, record);
                }
                Ask::List {
                    records: Lent::new(rng, &records, 40),
                }
            }
            Call::Check => Ask::Check,
            Call::Visit { target, logical } => {
                let (snapshot, name) = lent_target(target, rng);
                Ask::Visit {
                    snapshot,
                    name,
                    block: logical.0 as u32,
                    visit: unset_name(rng),
                }
            }
            Call::ReadSpan {
                target,
                offset,
                lent,
            } => {
                let (snapshot, name) = lent_target(target, rng);
                Ask::ReadSpan {
                    snapshot,
                    name,
                    offset: *offset,
                    out: Lent::new(rng, lent, 40),
                }
            }
            Call::WriteSpan { offset, lent } => Ask::WriteSpan {
                offset: *offset,
                bytes: Lent::new(rng, lent, 40),
            },
        }
    }

    /// The name that a visit has stored; zeros for every other call.
    pub fn visit(&self) -> Name {
        match self {
            Ask::Visit { visit, .. } => Name::try_from(visit.part()).unwrap_or_default(),
            _ => Name::default(),
        }
    }

    /// The call in a few words.
    pub fn words(&self) -> String {
        let text = |name: &Lent| format!("\"{}\"", name.part().escape_ascii());
        match self {
            Ask::Ream {
                layout,
                volume,
                revision,
                name,
            } => format!(
                "ream layout {layout} volume {volume} revision {revision} name {}",
                text(name)
            ),
            Ask::Read {
                snapshot,
                name,
                block,
                out,
            } => format!(
                "read snapshot {snapshot} name {} block {block} length {}",
                text(name),
                out.length()
            ),
            Ask::Write { block, bytes } => {
                format!("write block {block} length {}", bytes.length())
            }
            Ask::Snap { name } => format!("snap {}", text(name)),
            Ask::Revert { name } => format!("revert {}", text(name)),
            Ask::List { records } => format!("list length {}", records.length()),
            Ask::Check => "check".to_string(),
            Ask::Visit {
                snapshot,
                name,
                block,
                ..
            } => format!(
                "visit snapshot {snapshot} name {} block {block}",
                text(name)
            ),
            Ask::ReadSpan {
                snapshot,
                name,
                offset,
                out,
            } => format!(
                "read span snapshot {snapshot} name {} offset {offset} length {}",
                text(name),
                out.length()
            ),
            Ask::WriteSpan { offset, bytes } => {
                format!("write span offset {offset} length {}", bytes.length())
            }
        }
    }

    /// What was said, by the answer and this call with its memory at exit.
    pub fn said(&self, answer: Answer) -> Said {
        let (block, records) = self.call().lent();
        Said {
            answer: store::Answer {
                number: u64::from(answer.0),
                place: u64::from(answer.1),
            },
            block,
            records,
            filled: 0,
            visit: self.visit(),
        }
    }
}

/// A slice as the library takes it.
fn lend(part: &mut [u8]) -> (*mut u8, usize) {
    (part.as_mut_ptr(), part.len())
}

/// The call by the library. All pointers come from mutable slices, so that a change of any
/// of these bytes shows afterwards.
pub fn by_library(card: &mut [u8], ask: &mut Ask) -> Answer {
    let mut place = 0x5a5a_5a5a;
    let at = &mut place;
    let (card, n) = lend(card);
    // Safety: each pointer and length is that of one slice, and the slices are distinct; that of a
    // visit has sixteen bytes.
    let number = unsafe {
        match ask {
            Ask::Ream {
                layout,
                volume,
                revision,
                name,
            } => {
                let (name, length) = lend(name.part_mut());
                mantreuy_ream(card, n, *layout, *volume, *revision, name, length, at)
            }
            Ask::Read {
                snapshot,
                name,
                block,
                out,
            } => {
                let (name, length) = lend(name.part_mut());
                let (out, room) = lend(out.part_mut());
                mantreuy_read(card, n, *snapshot, name, length, *block, out, room, at)
            }
            Ask::Write { block, bytes } => {
                let (bytes, length) = lend(bytes.part_mut());
                mantreuy_write(card, n, *block, bytes, length, at)
            }
            Ask::Snap { name } => {
                let (name, length) = lend(name.part_mut());
                mantreuy_snap(card, n, name, length, at)
            }
            Ask::Revert { name } => {
                let (name, length) = lend(name.part_mut());
                mantreuy_revert(card, n, name, length, at)
            }
            Ask::List { records } => {
                let (records, length) = lend(records.part_mut());
                mantreuy_list(card, n, records, length, at)
            }
            Ask::Check => mantreuy_check(card, n, at),
            Ask::Visit {
                snapshot,
                name,
                block,
                visit,
            } => {
                let (name, length) = lend(name.part_mut());
                let (visit, _) = lend(visit.part_mut());
                mantreuy_visit(card, n, *snapshot, name, length, *block, visit, at)
            }
            Ask::ReadSpan {
                snapshot,
                name,
                offset,
                out,
            } => {
                let (name, length) = lend(name.part_mut());
                let (out, room) = lend(out.part_mut());
                mantreuy_read_span(card, n, *snapshot, name, length, *offset, out, room, at)
            }
            Ask::WriteSpan { offset, bytes } => {
                let (bytes, length) = lend(bytes.part_mut());
                mantreuy_write_span(card, n, *offset, bytes, length, at)
            }
        }
    };
    (number, place)
}

/// A text made into a name by the library.
pub fn pad_name(text: &mut [u8], name: &mut [u8]) -> u32 {
    let (text, text_length) = lend(text);
    let (name, name_length) = lend(name);
    // Safety: as above.
    unsafe { mantreuy_pad_name(text, text_length, name, name_length) }
}

/// What a name is stored in, with some bytes there before.
pub fn unset_name(rng: &mut Rng) -> Lent {
    let before = noise(rng, NAME_SIZE);
    Lent::new(rng, &before, 40)
}

fn target_of(snapshot: u32, name: &Lent) -> Target {
    match snapshot {
        0 => Target::Active,
        _ => Target::Snapshot(text_of(name)),
    }
}

fn lent_target(target: &Target, rng: &mut Rng) -> (u32, Lent) {
    match target {
        Target::Active => (0, name_of(&[], rng)),
        Target::Snapshot(name) => (1, name_of(name, rng)),
    }
}

/// The buffer of a text; one that is too long for a name stays as it is.
fn name_of(text: &[u8], rng: &mut Rng) -> Lent {
    match text.len() > NAME_SIZE {
        true => Lent::new(rng, text, 40),
        false => Lent::new(rng, &padded(text), 40),
    }
}

/// The text of a name buffer; of another length than 16 it is no name.
fn text_of(name: &Lent) -> Vec<u8> {
    match Name::try_from(name.part()) {
        Ok(name) => unpadded(&name).to_vec(),
        Err(_) => Vec::new(),
    }
}

fn record_of(bytes: &[u8]) -> Record {
    let mut name = [0; NAME_SIZE];
    name.copy_from_slice(&bytes[..NAME_SIZE]);
    Record {
        name,
        alpha: number_at(bytes, RECORD_ALPHA),
        beta: number_at(bytes, RECORD_BETA),
        next: number_at(bytes, RECORD_NEXT),
    }
}

fn store_record(bytes: &mut [u8], record: &Record) {
    bytes[..NAME_SIZE].copy_from_slice(&record.name);
    store_number(bytes, RECORD_ALPHA, record.alpha);
    store_number(bytes, RECORD_BETA, record.beta);
    store_number(bytes, RECORD_NEXT, record.next);
}

/// The same call by the own store.
pub fn by_own(card: &mut [u8], ask: &mut Ask) -> Answer {
    let said = carry_out(card, &ask.call());
    match ask {
        Ask::Read { out, .. } | Ask::ReadSpan { out, .. } => {
            out.part_mut().copy_from_slice(&said.block);
        }
        Ask::Visit { visit, .. } => visit.part_mut().copy_from_slice(&said.visit),
        Ask::List { records } => {
            let chunks = records.part_mut().chunks_exact_mut(RECORD_SIZE);
            for (bytes, record) in chunks.zip(&said.records) {
                store_record(bytes, record);
            }
        }
        _ => {}
    }
    (said.answer.number as u32, said.answer.place as u32)
}

/// The active descriptor's beta, as the library lists it.
pub fn listed_beta(card: &mut [u8]) -> Result<usize, String> {
    let mut records = vec![0; MOST_DESCRIPTORS * RECORD_SIZE];
    let mut place = 0;
    let (area, n) = lend(card);
    let (to, room) = lend(&mut records);
    // Safety: as above.
    let number = unsafe { mantreuy_list(area, n, to, room, &mut place) };
    if number != 0 {
        return Err(format!("no chain: {number} {place}"));
    }
    let mut listed = records.chunks_exact(RECORD_SIZE).map(record_of);
    match listed.find(|record| record.next == 0) {
        Some(record) => Ok(record.beta as usize),
        None => Err("no last record".to_string()),
    }
}
