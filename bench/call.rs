// A call with its arguments, made to the library or to the baseline.
use crate::baseline::{self, Answer};
use crate::declared::RECORD_SIZE;
use crate::library;
use crate::numbers::{Name, BLOCK, MOST_DESCRIPTORS, NAME_SIZE};
use std::iter;
use std::ops::Range;

#[derive(Clone, Copy, PartialEq, Eq, Debug)]
pub enum Call {
    Nothing,
    Ream {
        layout: u32,
        volume: u32,
        revision: u32,
        name: Name,
    },
    Read {
        snapshot: Option<Name>,
        block: u32,
    },
    // the bytes that are lent say how long a span is
    ReadSpan {
        snapshot: Option<Name>,
        offset: u64,
    },
    Visit {
        snapshot: Option<Name>,
        block: u32,
    },
    Write {
        block: u32,
    },
    WriteSpan {
        offset: u64,
    },
    Snap {
        name: Name,
    },
    Revert {
        name: Name,
    },
    List,
    Check,
}

impl Call {
    pub fn is_span(&self) -> bool {
        matches!(self, Call::ReadSpan { .. } | Call::WriteSpan { .. })
    }
}

#[derive(Clone, Copy, PartialEq, Eq, Debug)]
pub enum Side {
    Library,
    Baseline,
    // a span by whole-block calls of the library, and no other call
    Whole,
}

// What is lent besides the card, and the name that a visit stores.
#[derive(Clone, PartialEq, Eq)]
pub struct Lent {
    pub out: Vec<u8>,
    pub bytes: Vec<u8>,
    pub records: Vec<u8>,
    pub visit: Name,
}

impl Lent {
    pub fn new() -> Lent {
        Lent::of(BLOCK)
    }

    // With so many bytes to fill, and as many to write.
    pub fn of(length: usize) -> Lent {
        Lent {
            out: vec![0xee; length],
            bytes: (0..length).map(|i| (i * 7 + 3) as u8).collect(),
            records: vec![0xdd; RECORD_SIZE * MOST_DESCRIPTORS],
            visit: [0xcc; NAME_SIZE],
        }
    }
}

pub fn name(text: &str) -> Name {
    let mut name = [0; NAME_SIZE];
    name[..text.len()].copy_from_slice(text.as_bytes());
    name
}

pub fn make(side: Side, call: &Call, card: &mut [u8], lent: &mut Lent) -> Answer {
    match side {
        Side::Library => make_library(call, card, lent),
        Side::Baseline => make_baseline(call, card, lent),
        Side::Whole => make_whole(call, card, lent),
    }
}

// What is measured: the same steps around the call on both sides.
macro_rules! measured {
    ($make:ident, $symbol:literal, $side:ident) => {
        #[inline(never)]
        #[export_name = $symbol]
        fn $make(call: &Call, card: &mut [u8], lent: &mut Lent) -> Answer {
            match call {
                Call::Nothing => Ok(()),
                Call::Ream {
                    layout,
                    volume,
                    revision,
                    name,
                } => $side::ream(card, *layout, *volume, *revision, name),
                Call::Read { snapshot, block } => {
                    let name = snapshot.as_ref().map(|name| name.as_slice());
                    $side::read(card, name, *block, &mut lent.out)
                }
                Call::ReadSpan { snapshot, offset } => {
                    let name = snapshot.as_ref().map(|name| name.as_slice());
                    $side::read_span(card, name, *offset, &mut lent.out)
                }
                Call::Visit { snapshot, block } => {
                    let name = snapshot.as_ref().map(|name| name.as_slice());
                    $side::visit(card, name, *block, &mut lent.visit)
                }
                Call::Write { block } => $side::write(card, *block, &lent.bytes),
                Call::WriteSpan { offset } => $side::write_span(card, *offset, &lent.bytes),
                Call::Snap { name } => $side::snap(card, name),
                Call::Revert { name } => $side::revert(card, name),
                Call::List => $side::list(card, &mut lent.records),
                Call::Check => $side::check(card),
            }
        }
    };
}

measured!(make_library, "measured_library", library);
measured!(make_baseline, "measured_baseline", baseline);

// The pieces of a span that ends within the volume, rising: the logical block, which bytes of it, which of the span.
fn pieces(offset: u64, length: usize) -> impl Iterator<Item = (u32, Range<usize>, Range<usize>)> {
    let mut next = 0;
    iter::from_fn(move || {
        let at = offset as usize + next;
        let (l, from) = ((at / BLOCK) as u32, at % BLOCK);
        let size = (BLOCK - from).min(length - next);
        let piece = next..next + size;
        next += size;
        (size > 0).then_some((l, from..from + size, piece))
    })
}

// The same bytes by whole-block calls: a block of which the span has only a part is read apart, and for a write it is
// written with that part changed.
#[inline(never)]
#[export_name = "measured_whole"]
fn make_whole(call: &Call, card: &mut [u8], lent: &mut Lent) -> Answer {
    let mut block = [0; BLOCK];
    match call {
        Call::ReadSpan { snapshot, offset } => {
            let name = snapshot.as_ref().map(|name| name.as_slice());
            for (l, part, piece) in pieces(*offset, lent.out.len()) {
                let piece = &mut lent.out[piece];
                if part.len() == BLOCK {
                    library::read(card, name, l, piece)?;
                } else {
                    library::read(card, name, l, &mut block)?;
                    piece.copy_from_slice(&block[part]);
                }
            }
        }
        Call::WriteSpan { offset } => {
            for (l, part, piece) in pieces(*offset, lent.bytes.len()) {
                let piece = &lent.bytes[piece];
                if part.len() == BLOCK {
                    library::write(card, l, piece)?;
                } else {
                    library::read(card, None, l, &mut block)?;
                    block[part].copy_from_slice(piece);
                    library::write(card, l, &block)?;
                }
            }
        }
        _ => {}
    }
    Ok(())
}
