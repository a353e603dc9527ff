//! A call as a value, with its arguments and the content of what is lent to it besides the
//! card; and what a call says: its answer and that content at exit.

use crate::numbers::NAME_SIZE;
use crate::store::{self, Answer, Logical, Name, Record, Target};

#[derive(Clone, Debug)]
pub enum Call {
    Ream {
        layout: u64,
        volume: u64,
        revision: u64,
        name: Vec<u8>,
    },
    Read {
        target: Target,
        logical: Logical,
        lent: Vec<u8>,
    },
    Write {
        logical: Logical,
        lent: Vec<u8>,
    },
    Snap {
        name: Vec<u8>,
    },
    Revert {
        name: Vec<u8>,
    },
    List {
        lent: Vec<Record>,
    },
    Check,
    Visit {
        target: Target,
        logical: Logical,
    },
    ReadSpan {
        target: Target,
        offset: u64,
        lent: Vec<u8>,
    },
    WriteSpan {
        offset: u64,
        lent: Vec<u8>,
    },
}

/// The kinds of calls; as a number, the row of a table.
#[derive(Clone, Copy)]
pub enum Kind {
    Ream,
    Read,
    Write,
    Snap,
    Revert,
    List,
    Check,
    Visit,
    ReadSpan,
    WriteSpan,
}

/// The titles of the rows.
pub const KINDS: [&str; 10] = [
    "ream",
    "read",
    "write",
    "snap",
    "revert",
    "list",
    "check",
    "visit",
    "read span",
    "write span",
];

impl Call {
    pub fn kind(&self) -> Kind {
        match self {
            Call::Ream { .. } => Kind::Ream,
            Call::Read { .. } => Kind::Read,
            Call::Write { .. } => Kind::Write,
            Call::Snap { .. } => Kind::Snap,
            Call::Revert { .. } => Kind::Revert,
            Call::List { .. } => Kind::List,
            Call::Check => Kind::Check,
            Call::Visit { .. } => Kind::Visit,
            Call::ReadSpan { .. } => Kind::ReadSpan,
            Call::WriteSpan { .. } => Kind::WriteSpan,
        }
    }

    /// The lent block, or the lent bytes of a span, and the lent list, empty where none is lent.
    pub fn lent(&self) -> (Vec<u8>, Vec<Record>) {
        match self {
            Call::Read { lent, .. }
            | Call::Write { lent, .. }
            | Call::ReadSpan { lent, .. }
            | Call::WriteSpan { lent, .. } => (lent.clone(), Vec::new()),
            Call::List { lent } => (Vec::new(), lent.clone()),
            _ => (Vec::new(), Vec::new()),
        }
    }
}

#[derive(Clone, PartialEq, Eq, Debug)]
pub struct Said {
    pub answer: Answer,
    /// The lent block, or the lent bytes of a span, at exit, empty where none was lent.
    pub block: Vec<u8>,
    /// The lent list at exit, empty where none was lent.
    pub records: Vec<Record>,
    /// How many records were filled.
    pub filled: usize,
    /// The name that a visit gives; zeros for none, and for every other call.
    pub visit: Name,
}

fn plain(answer: Answer) -> Said {
    Said {
        answer,
        block: Vec::new(),
        records: Vec::new(),
        filled: 0,
        visit: [0; NAME_SIZE],
    }
}

/// Carries out a call on a card.
pub fn carry_out(card: &mut [u8], call: &Call) -> Said {
    match call {
        Call::Ream {
            layout,
            volume,
            revision,
            name,
        } => plain(store::ream(card, *layout, *volume, *revision, name)),
        Call::Read {
            target,
            logical,
            lent,
        } => {
            let mut block = lent.clone();
            let answer = store::read(card, target, *logical, &mut block);
            Said {
                block,
                ..plain(answer)
            }
        }
        Call::Write { logical, lent } => {
            let answer = store::write(card, *logical, lent);
            Said {
                block: lent.clone(),
                ..plain(answer)
            }
        }
        Call::Snap { name } => plain(store::snap(card, name)),
        Call::Revert { name } => plain(store::revert(card, name)),
        Call::List { lent } => {
            let mut records = lent.clone();
            let (answer, filled) = store::list(card, &mut records);
            Said {
                records,
                filled,
                ..plain(answer)
            }
        }
        Call::Check => plain(store::check(card)),
        Call::Visit { target, logical } => {
            let (answer, name) = store::visit(card, target, *logical);
            Said {
                visit: name.unwrap_or_default(),
                ..plain(answer)
            }
        }
        Call::ReadSpan {
            target,
            offset,
            lent,
        } => {
            let mut block = lent.clone();
            let answer = store::read_span(card, target, *offset, &mut block);
            Said {
                block,
                ..plain(answer)
            }
        }
        Call::WriteSpan { offset, lent } => {
            let answer = store::write_span(card, *offset, lent);
            Said {
                block: lent.clone(),
                ..plain(answer)
            }
        }
    }
}
