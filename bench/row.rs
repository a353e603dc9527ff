// The rows of the benchmark: a call on a prepared card.
use crate::baseline;
use crate::call::{name, Call, Lent};
use crate::numbers::*;

#[derive(Clone, Copy, PartialEq, Eq, Debug)]
pub enum Kind {
    Ream,
    ReadActive,
    ReadMiddle,
    VisitActive,
    VisitMiddle,
    Overwrite,
    WriteOne,
    WriteTwo,
    SpanActive(Span),
    SpanMiddle(Span),
    SpanWrite(Span),
    Snap,
    Revert,
    List,
    Check,
}

// Which bytes of the volume a span has.
#[derive(Clone, Copy, PartialEq, Eq, Debug)]
pub enum Span {
    // a record of 700 bytes in two blocks, 412 and 288
    Two,
    // one in three blocks, 12, 512 and 176
    Three,
    // 128 whole blocks
    Long,
}

const RECORD: usize = 700;
const LONG: u32 = 128;

impl Span {
    // The block in the middle of the volume is its first, or in the middle of the long one.
    fn offset(self, volume: u32) -> u64 {
        let (block, byte) = match self {
            Span::Two => (volume / 2, 100),
            Span::Three => (volume / 2, 500),
            Span::Long => (volume / 2 - LONG / 2, 0),
        };
        BLOCK as u64 * u64::from(block) + byte
    }

    fn length(self) -> usize {
        match self {
            Span::Two | Span::Three => RECORD,
            Span::Long => BLOCK * LONG as usize,
        }
    }

    fn title(self) -> &'static str {
        match self {
            Span::Two => "700 bytes in 2 blocks",
            Span::Three => "700 bytes in 3 blocks",
            Span::Long => "64 KiB",
        }
    }
}

// How the card of a row was made.
#[derive(Clone, Copy, PartialEq, Eq, Debug)]
pub struct Setting {
    pub layout: u32,
    pub volume: u32,
    pub revision: u32,
    pub snapshots: usize,
    pub content: Content,
}

#[derive(Clone, Copy, PartialEq, Eq, Debug)]
pub enum Content {
    // all but the last block written, then four more writes in each region
    Usual,
    // the same without the writes in the last region
    Bare,
    // as usual, with as many free blocks as the longest span can take
    Roomy,
    // as many blocks as may be, all of the volume written, and the free blocks shared out among the regions
    Fullest,
}

#[derive(Clone, Copy, PartialEq, Eq, Debug)]
pub struct Row {
    pub kind: Kind,
    pub setting: Setting,
}

const KINDS: [Kind; 19] = [
    Kind::Ream,
    Kind::ReadActive,
    Kind::ReadMiddle,
    Kind::VisitActive,
    Kind::VisitMiddle,
    Kind::Overwrite,
    Kind::WriteOne,
    Kind::WriteTwo,
    Kind::SpanActive(Span::Two),
    Kind::SpanActive(Span::Three),
    Kind::SpanActive(Span::Long),
    Kind::SpanMiddle(Span::Two),
    Kind::SpanWrite(Span::Two),
    Kind::SpanWrite(Span::Three),
    Kind::SpanWrite(Span::Long),
    Kind::Snap,
    Kind::Revert,
    Kind::List,
    Kind::Check,
];

// All rows, those with the same card beside one another; among them stands the revert on such a card of revision 1.
pub fn rows() -> Vec<Row> {
    let mut rows = Vec::new();
    for layout in [1, 2] {
        for volume in [TABLE_ENTRIES, MOST_VOLUME] {
            for snapshots in [0, 1, 16, MOST_SNAPSHOTS - 1, MOST_SNAPSHOTS] {
                for content in [Content::Usual, Content::Bare, Content::Roomy] {
                    let setting = |revision| Setting {
                        layout,
                        volume,
                        revision,
                        snapshots,
                        content,
                    };
                    rows.extend(
                        KINDS
                            .iter()
                            .flat_map(|&kind| {
                                [0, 1].map(|revision| Row {
                                    kind,
                                    setting: setting(revision),
                                })
                            })
                            .filter(is_row),
                    );
                }
            }
        }
        let setting = Setting {
            layout,
            volume: MOST_VOLUME,
            revision: 0,
            snapshots: MOST_SNAPSHOTS,
            content: Content::Fullest,
        };
        rows.push(Row {
            kind: Kind::Check,
            setting,
        });
    }
    rows
}

// One snapshot less than the most is for the snap that takes the last one; a format does not look at the card; revision
// 1 is for the revert, which alone goes by it; spans are on cards with no snapshot, with one and with the most.
fn is_row(row: &Row) -> bool {
    let s = row.setting;
    let fits = match row.kind {
        Kind::Ream => s.snapshots == 0,
        Kind::ReadMiddle | Kind::VisitMiddle | Kind::Revert => s.snapshots > 0,
        Kind::WriteTwo => s.layout == 2,
        Kind::Snap => s.snapshots != MOST_SNAPSHOTS,
        Kind::SpanActive(_) | Kind::SpanWrite(_) => {
            matches!(s.snapshots, 0 | 1 | MOST_SNAPSHOTS)
        }
        Kind::SpanMiddle(_) => matches!(s.snapshots, 1 | MOST_SNAPSHOTS),
        _ => true,
    };
    let content = match row.kind {
        Kind::WriteTwo => Content::Bare,
        Kind::SpanWrite(_) => Content::Roomy,
        _ => Content::Usual,
    };
    fits && (s.revision == 0 || row.kind == Kind::Revert)
        && s.content == content
        && (row.kind == Kind::Snap || s.snapshots != MOST_SNAPSHOTS - 1)
}

impl Row {
    pub fn call(&self) -> Call {
        let s = self.setting;
        let middle = visit(s.snapshots / 2);
        let last = s.volume - 1;
        match self.kind {
            Kind::Ream => Call::Ream {
                layout: s.layout,
                volume: s.volume,
                revision: s.revision,
                name: name("fs"),
            },
            Kind::ReadActive => Call::Read {
                snapshot: None,
                block: s.volume / 2,
            },
            Kind::ReadMiddle => Call::Read {
                snapshot: Some(middle),
                block: s.volume / 2,
            },
            // the block dates from the first region
            Kind::VisitActive => Call::Visit {
                snapshot: None,
                block: 1,
            },
            // the block dates from the snapshot's own region
            Kind::VisitMiddle => Call::Visit {
                snapshot: Some(middle),
                block: s.volume / 2,
            },
            Kind::Overwrite => Call::Write {
                block: s.volume / 2,
            },
            Kind::WriteOne => Call::Write {
                block: if s.snapshots == 0 { last } else { 1 },
            },
            Kind::WriteTwo => Call::Write { block: 1 },
            Kind::SpanActive(span) => Call::ReadSpan {
                snapshot: None,
                offset: span.offset(s.volume),
            },
            Kind::SpanMiddle(span) => Call::ReadSpan {
                snapshot: Some(middle),
                offset: span.offset(s.volume),
            },
            Kind::SpanWrite(span) => Call::WriteSpan {
                offset: span.offset(s.volume),
            },
            Kind::Snap => Call::Snap {
                name: name("visit-next"),
            },
            Kind::Revert => Call::Revert { name: middle },
            Kind::List => Call::List,
            Kind::Check => Call::Check,
        }
    }

    // What is lent to the call besides the card.
    pub fn lent(&self) -> Lent {
        match self.span() {
            Some(span) => Lent::of(span.length()),
            None => Lent::new(),
        }
    }

    fn span(&self) -> Option<Span> {
        match self.kind {
            Kind::SpanActive(span) | Kind::SpanMiddle(span) | Kind::SpanWrite(span) => Some(span),
            _ => None,
        }
    }

    pub fn title(&self) -> String {
        let text = match self.kind {
            Kind::Ream => "ream",
            Kind::ReadActive => "read, active",
            Kind::ReadMiddle => "read, middle snapshot",
            Kind::VisitActive => "visit, active",
            Kind::VisitMiddle => "visit, middle snapshot",
            Kind::Overwrite => "write, overwriting",
            Kind::WriteOne => "write, 1 new block",
            Kind::WriteTwo => "write, 2 new blocks",
            Kind::SpanActive(_) => "span read, active",
            Kind::SpanMiddle(_) => "span read, middle snapshot",
            Kind::SpanWrite(_) => "span write",
            Kind::Snap => "snap",
            Kind::Revert if self.setting.revision == 1 => "revert, revision 1",
            Kind::Revert => "revert",
            Kind::List => "list",
            Kind::Check if self.setting.content == Content::Fullest => "check, fullest card",
            Kind::Check => "check",
        };
        match self.span() {
            Some(span) => format!("{text}, {}", span.title()),
            None => text.to_string(),
        }
    }

    // The cells of a table that name the row.
    pub fn cells(&self) -> String {
        let s = self.setting;
        format!(
            "{} | {} | {} | {}",
            self.title(),
            s.layout,
            s.volume,
            s.snapshots
        )
    }

    // Whether the call does the same on the card that it leaves.
    pub fn repeats(&self) -> bool {
        !matches!(
            self.kind,
            Kind::WriteOne | Kind::WriteTwo | Kind::SpanWrite(_) | Kind::Snap | Kind::Revert
        )
    }

    // The bytes that a read or a write moves at least: of whole blocks, or of its span.
    pub fn moved(&self) -> Option<usize> {
        match self.kind {
            Kind::ReadActive | Kind::ReadMiddle | Kind::Overwrite | Kind::WriteOne => Some(BLOCK),
            Kind::WriteTwo => Some(2 * BLOCK),
            _ => self.span().map(Span::length),
        }
    }
}

// The name of snapshot k.
fn visit(k: usize) -> Name {
    name(&format!("visit-{k:03}"))
}

// A stored number.
pub fn number(bytes: &[u8], at: usize) -> u32 {
    u32::from_le_bytes(bytes[at..at + NUMBER].try_into().unwrap())
}

// The blocks of the descriptors of a sound chain.
pub fn chain(card: &[u8]) -> Vec<usize> {
    let mut blocks = vec![0];
    loop {
        match number(card, BLOCK * blocks[blocks.len() - 1] + NEXT) as usize {
            0 => return blocks,
            next => blocks.push(next),
        }
    }
}

// The first block after the last region.
fn beta(card: &[u8]) -> usize {
    let blocks = chain(card);
    number(card, BLOCK * blocks[blocks.len() - 1] + BETA) as usize
}

// The card of a setting, with no more blocks than the calls need.
pub fn prepare(s: &Setting) -> Vec<u8> {
    let mut card = vec![0u8; BLOCK * MOST_BLOCKS];
    let bytes: Vec<u8> = (0..BLOCK).map(|i| (i * 5 + 1) as u8).collect();
    let l = s.volume;
    let c = cost(s.layout, l) as usize;
    assert!(baseline::ream(&mut card, s.layout, l, s.revision, &name("fs")).is_ok());
    let empty = s.content == Content::Bare && s.snapshots == 0;
    let full = s.content == Content::Fullest;
    for block in 0..if empty { 0 } else { l - !full as u32 } {
        assert!(baseline::write(&mut card, block, &bytes).is_ok());
    }
    for k in 0..s.snapshots {
        assert!(baseline::snap(&mut card, &visit(k)).is_ok());
        if full {
            // an equal share of what is left, with all later openings kept free
            let later = s.snapshots - 1 - k;
            let end = beta(&card) + (MOST_BLOCKS - beta(&card) - c * later) / (later + 1);
            let mut block = k as u32 * 131 % l;
            while beta(&card) + 2 <= end {
                assert!(baseline::write(&mut card, block, &bytes).is_ok());
                block = (block + 1) % l;
            }
            if later == 0 && beta(&card) < MOST_BLOCKS {
                // the last block of the card: a write that takes one
                let block = (block..block + l).map(|b| b % l).find(|&block| {
                    baseline::write(&mut card, block, &bytes).is_ok() && beta(&card) == MOST_BLOCKS
                });
                assert!(block.is_some());
            }
        } else if s.content != Content::Bare || k + 1 < s.snapshots {
            for block in [0, l / 4, l / 2, 3 * (l / 4)] {
                assert!(baseline::write(&mut card, block, &bytes).is_ok());
            }
        }
    }
    if !full {
        let free = match s.content {
            // each block of data, and the tables of two groups
            Content::Roomy => LONG as usize + 2,
            _ => c.max(2),
        };
        let end = beta(&card) + free;
        card.truncate(BLOCK * end);
        card.shrink_to_fit();
    }
    assert!(baseline::check(&card).is_ok());
    card
}
