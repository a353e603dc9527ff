//! A maker of random calls. It follows the names that stand on the card by the answers.

use crate::boundary::{unset_name, Ask};
use crate::call::Kind;
use crate::declared::RECORD_SIZE;
use crate::extent;
use crate::lent::{noise, Lent};
use crate::numbers::*;
use crate::pair::Pair;
use crate::rng::Rng;
use crate::store::{self, opening_cost, Logical, Name, NOTHING};

/// The weight of snaps in a list that is to meet 13.
pub const MANY_SNAPS: u64 = 4_000;

pub const LETTERS: &[u8] = b"abcdefghijklmnopqrstuvwxyz0123456789.-";

/// The sizes of a card and of its list.
pub struct Shape {
    pub layout: u32,
    pub volume: u32,
    pub revision: u32,
    pub blocks: usize,
    /// How many calls the list has.
    pub length: u64,
    pub snap_weight: u64,
}

impl Shape {
    /// In a few words.
    pub fn words(&self) -> String {
        let sizes = (self.layout, self.volume, self.revision, self.blocks);
        format!("layout, volume, revision, blocks {sizes:?}")
    }
}

pub struct Maker {
    pub rng: Rng,
    pub shape: Shape,
    /// Logical blocks that are used again and again.
    pub hot: Vec<u32>,
    /// The names of the snapshots, in order.
    pub names: Vec<Name>,
    active: Name,
    /// The visit of the last accepted revert.
    last: Option<Name>,
    pool: Vec<Name>,
    /// Whether the area is always lent whole and no ream is accepted.
    pub steady: bool,
    full: bool,
}

/// A random name.
pub fn random_name(rng: &mut Rng) -> Name {
    let length = match rng.below(4) {
        0 => NAME_SIZE as u64,
        1 => 1,
        _ => rng.between(1, NAME_SIZE as u64),
    };
    let mut name = [0; NAME_SIZE];
    for byte in &mut name[..length as usize] {
        *byte = *rng.pick(LETTERS);
    }
    name
}

/// A random volume; `most` is at least 1.
pub fn random_volume(rng: &mut Rng, most: u64) -> u32 {
    let volume = match rng.below(5) {
        0 => rng.between(1, 20),
        1 => *rng.pick(&[1, 127, 128, 129, 255, 256, 257, 384]),
        2 => rng.between(1, most),
        3 if rng.once_in(4) => most - rng.below(2).min(most - 1),
        _ => rng.between(1, 700),
    };
    volume.min(most) as u32
}

/// The greatest volume of a card.
pub fn most_volume(layout: u64, blocks: u64) -> u64 {
    match layout {
        1 => MOST_VOLUME.min(TABLE_ENTRIES * (blocks - 1)),
        _ => MOST_VOLUME,
    }
}

/// How many blocks of a card are free; 0 where it has no sound chain.
fn free_blocks(card: &[u8]) -> u64 {
    let mut records = [NOTHING; MOST_DESCRIPTORS];
    let count = store::list(card, &mut records).1;
    let last = records[..count].last();
    last.map_or(0, |record| (card.len() / BLOCK) as u64 - record.beta)
}

/// What a card may hold before it is formatted.
pub fn unformatted(rng: &mut Rng, blocks: usize) -> Vec<u8> {
    let length = blocks * BLOCK;
    match rng.below(4) {
        0 => vec![0; length],
        1 => vec![0xff; length],
        2 => noise(rng, length),
        _ => {
            // A card that was in use before.
            let mut card = vec![0; length];
            store::ream(&mut card, rng.between(1, 2), 300, rng.below(2), b"old");
            for k in 0..blocks.min(300) {
                let logical = Logical(rng.below(300));
                store::write(&mut card, logical, &[k as u8; BLOCK]);
                if rng.once_in(6) {
                    store::snap(&mut card, format!("v{k}").as_bytes());
                }
            }
            card
        }
    }
}

impl Maker {
    pub fn new(mut rng: Rng, shape: Shape) -> Maker {
        let names = match shape.snap_weight {
            MANY_SNAPS => 500,
            _ => rng.between(2, 30),
        };
        let pool = (0..names).map(|_| random_name(&mut rng)).collect();
        let mut hot = Vec::new();
        for _ in 0..rng.between(2, 40) {
            let near = *rng.pick(&[8, 130, MOST_VOLUME]);
            hot.push(rng.below(near.min(u64::from(shape.volume))) as u32);
        }
        Maker {
            active: random_name(&mut rng),
            rng,
            shape,
            hot,
            names: Vec::new(),
            last: None,
            pool,
            steady: false,
            full: false,
        }
    }

    /// The format that the list begins with.
    pub fn first_ream(&mut self) -> Ask {
        self.pool.retain(|name| *name != self.active);
        let name = self.active;
        Ask::Ream {
            layout: self.shape.layout,
            volume: self.shape.volume,
            revision: self.shape.revision,
            name: self.lent(&name),
        }
    }

    /// Takes note of an answer.
    pub fn after(&mut self, ask: &Ask, number: u32) {
        let named = |name: &Lent| Name::try_from(name.part()).unwrap_or([0; NAME_SIZE]);
        match ask {
            Ask::Write { .. } | Ask::WriteSpan { .. } => self.full = number == 11,
            Ask::Snap { name } => {
                self.full = number == 11;
                if number == 0 {
                    self.names.push(named(name));
                }
            }
            Ask::Revert { name } if number == 0 => {
                self.full = false;
                let name = named(name);
                self.last = Some(name);
                // On revision 1 the visit itself stays.
                if let Some(k) = self.names.iter().position(|other| *other == name) {
                    self.names.truncate(k + self.shape.revision as usize);
                }
            }
            Ask::Ream {
                layout,
                volume,
                revision,
                name,
            } if number == 0 => {
                self.full = false;
                self.names.clear();
                self.active = named(name);
                self.last = None;
                self.shape.layout = *layout;
                self.shape.volume = *volume;
                self.shape.revision = *revision;
            }
            _ => {}
        }
    }

    fn lent(&mut self, bytes: &[u8]) -> Lent {
        Lent::new(&mut self.rng, bytes, 40)
    }

    /// The length of the area that is lent: mostly the whole card.
    pub fn area_length(&mut self, card: &Lent) -> usize {
        let whole = card.length();
        let often = if whole > 2_000 * BLOCK { 6 } else { 25 };
        if self.steady || !self.rng.once_in(often) {
            return whole;
        }
        let rng = &mut self.rng;
        let length = match rng.below(8) {
            0 => *rng.pick(&[0, 1, 511, 512, 513, 1_023, 1_024]),
            1 => whole.saturating_sub(*rng.pick(&[1, 511, 512])),
            2 => whole + *rng.pick(&[1, 511, 512, 513]),
            3 => rng.below(whole as u64 + 1) as usize,
            4 => card.most(),
            5 => BLOCK * (whole / BLOCK + 1),
            _ => BLOCK * rng.below((whole / BLOCK) as u64 + 1) as usize,
        };
        length.min(card.most())
    }

    /// A random call, most often one that is accepted. Some written bytes are taken from
    /// the card.
    pub fn next(&mut self, card: &[u8]) -> Ask {
        if self.full && !self.names.is_empty() && self.rng.once_in(3) {
            return self.make(Kind::Revert, card);
        }
        // On revision 1 all 255 may stay.
        let most = self.shape.revision == 1 && self.names.len() == MOST_SNAPSHOTS;
        if most && self.rng.once_in(20) {
            return self.make(Kind::Revert, card);
        }
        // With 255 snapshots the rest of the card is filled as well.
        let snap = match self.names.len() {
            MOST_SNAPSHOTS => 800,
            _ => self.shape.snap_weight,
        };
        let kind = match self.rng.below(1_000 + snap) {
            0..=359 => Kind::Write,
            360..=449 => Kind::WriteSpan,
            450..=539 => Kind::Read,
            540..=609 => Kind::ReadSpan,
            610..=729 => Kind::Visit,
            730..=799 => Kind::List,
            800..=839 => Kind::Check,
            840..=859 => Kind::Ream,
            860..=869 => Kind::Revert,
            870..=899 if self.shape.snap_weight < MANY_SNAPS => Kind::Revert,
            _ => Kind::Snap,
        };
        self.make(kind, card)
    }

    /// A call of a kind.
    pub fn make(&mut self, kind: Kind, card: &[u8]) -> Ask {
        match kind {
            Kind::Ream => self.ream(),
            Kind::Read => {
                let (snapshot, name) = self.target();
                let length = self.block_length();
                let before = noise(&mut self.rng, length);
                Ask::Read {
                    snapshot,
                    name,
                    block: self.logical(),
                    out: self.lent(&before),
                }
            }
            Kind::Write => {
                let length = self.block_length();
                let content = self.content(card, length);
                Ask::Write {
                    block: self.logical(),
                    bytes: self.lent(&content),
                }
            }
            Kind::Snap => Ask::Snap {
                name: self.fresh_name(),
            },
            Kind::Revert => Ask::Revert {
                name: self.name_to_revert(),
            },
            Kind::List => {
                let length = self.list_length();
                let before = noise(&mut self.rng, length);
                Ask::List {
                    records: self.lent(&before),
                }
            }
            Kind::Check => Ask::Check,
            Kind::Visit => {
                let (snapshot, name) = self.target();
                Ask::Visit {
                    snapshot,
                    name,
                    block: self.logical(),
                    visit: unset_name(&mut self.rng),
                }
            }
            Kind::ReadSpan => {
                let (snapshot, name) = self.target();
                let (offset, length) = self.extent(card);
                let before = noise(&mut self.rng, length);
                Ask::ReadSpan {
                    snapshot,
                    name,
                    offset,
                    out: self.lent(&before),
                }
            }
            Kind::WriteSpan => {
                let (offset, length) = self.extent(card);
                let content = self.content(card, length);
                Ask::WriteSpan {
                    offset,
                    bytes: self.lent(&content),
                }
            }
        }
    }

    /// The number that says whether a snapshot is meant, and the name. Beside 0 it may be any bytes.
    fn target(&mut self) -> (u32, Lent) {
        let snapshot = match self.rng.below(8) {
            0..=3 => 0,
            4 => *self.rng.pick(&[2, 256, 65_536, 1 << 31, u32::MAX]),
            _ => 1,
        };
        if snapshot == 0 && self.rng.once_in(4) {
            let length = self.rng.below(2 * NAME_SIZE as u64) as usize;
            let bytes = noise(&mut self.rng, length);
            return (snapshot, self.lent(&bytes));
        }
        (snapshot, self.old_name())
    }

    fn logical(&mut self) -> u32 {
        let volume = self.shape.volume;
        match self.rng.below(30) {
            0 => volume,
            1 => *self.rng.pick(&[
                65_535,
                65_536,
                MOST_VOLUME as u32,
                volume + 1,
                1 << 31,
                u32::MAX,
            ]),
            2..=4 => self.rng.below(u64::from(volume)) as u32,
            5 => volume - 1,
            _ => *self.rng.pick(&self.hot),
        }
    }

    /// The offset and the length of a span.
    fn extent(&mut self, card: &[u8]) -> (u64, usize) {
        let used = u64::from(*self.rng.pick(&self.hot));
        let volume = u64::from(self.shape.volume);
        extent::random(&mut self.rng, volume, used, free_blocks(card))
    }

    fn block_length(&mut self) -> usize {
        match self.rng.below(40) {
            0 => *self.rng.pick(&[0, 1, 100, 511, 513, 1_024]),
            _ => BLOCK,
        }
    }

    /// What is written: also bytes that would do harm if they were taken for entries.
    fn content(&mut self, card: &[u8], length: usize) -> Vec<u8> {
        match self.rng.below(5) {
            0 => vec![self.rng.below(256) as u8; length],
            1 => vec![0; length],
            2 if length == BLOCK && card.len() >= BLOCK => {
                let blocks = (card.len() / BLOCK) as u64;
                let near = *self.rng.pick(&[1, 8, blocks]);
                let from = self.rng.below(near.min(blocks)) as usize * BLOCK;
                card[from..from + BLOCK].to_vec()
            }
            3 => {
                let mut bytes = Vec::new();
                while bytes.len() < length {
                    let entry = self.rng.below(self.shape.blocks as u64) as u32;
                    bytes.extend_from_slice(&entry.to_le_bytes());
                }
                bytes.truncate(length);
                bytes
            }
            _ => noise(&mut self.rng, length),
        }
    }

    fn list_length(&mut self) -> usize {
        let chain = self.names.len() + 1;
        let rest = self.rng.below(RECORD_SIZE as u64) as usize;
        match self.rng.below(8) {
            0 => chain * RECORD_SIZE,
            1 => chain * RECORD_SIZE - 1,
            2 => chain * RECORD_SIZE + rest,
            3 => (chain - 1) * RECORD_SIZE + rest,
            4 => self.rng.below(chain as u64 + 3) as usize * RECORD_SIZE + rest,
            5 => *self
                .rng
                .pick(&[0, 1, RECORD_SIZE - 1, RECORD_SIZE, RECORD_SIZE + 1]),
            6 => MOST_DESCRIPTORS * RECORD_SIZE,
            _ => MOST_DESCRIPTORS * RECORD_SIZE + rest + *self.rng.pick(&[0, 1, 30]) * RECORD_SIZE,
        }
    }

    /// A ream, mostly one that is refused.
    fn ream(&mut self) -> Ask {
        let (mut layout, mut volume) = (self.shape.layout, self.shape.volume);
        let rng = &mut self.rng;
        let mut revision = rng.below(2) as u32;
        let blocks = self.shape.blocks as u64;
        let mut name = random_name(rng);
        let mut bad_name = false;
        match rng.below(6) {
            0 => layout = *rng.pick(&[0, 3, 258, 65_537, u32::MAX]),
            1 => volume = *rng.pick(&[0, MOST_VOLUME as u32 + 1, 65_537, 1 << 31, u32::MAX]),
            2 if TABLE_ENTRIES * blocks <= MOST_VOLUME => {
                layout = 1;
                volume = (TABLE_ENTRIES * (blocks - 1) + 1 + rng.below(TABLE_ENTRIES)) as u32;
            }
            3 if !self.steady => {
                layout = rng.between(1, 2) as u32;
                let most = most_volume(u64::from(layout), blocks);
                volume = random_volume(rng, most);
                if rng.once_in(4) {
                    name = *rng.pick(&self.pool);
                }
            }
            4 => revision = *rng.pick(&NO_REVISIONS),
            _ => bad_name = true,
        }
        // Several refusals at once.
        if rng.once_in(4) {
            layout = *rng.pick(&[0, layout, layout, layout]);
            volume = *rng.pick(&[0, volume, volume]);
            revision = *rng.pick(&NO_REVISIONS);
            bad_name = bad_name || rng.once_in(2);
        }
        let name = match bad_name {
            true => self.no_name(),
            false => self.lent(&name),
        };
        Ask::Ream {
            layout,
            volume,
            revision,
            name,
        }
    }

    /// A buffer that is no name.
    fn no_name(&mut self) -> Lent {
        let good = match self.names.is_empty() {
            true => self.active,
            false => *self.rng.pick(&self.names),
        };
        let mut bytes = good.to_vec();
        let rng = &mut self.rng;
        match rng.below(7) {
            0 => bytes.resize(*rng.pick(&[0, 1, 15, 17, 32]), 0),
            1 => bytes = vec![0; NAME_SIZE],
            2 => bytes[0] = *rng.pick(b"\0AZ`{/:,_ \x80\xff"),
            3 => {
                let at = rng.below(NAME_SIZE as u64) as usize;
                bytes[at] = *rng.pick(b"AZ`{/:,_ \x80\xff");
            }
            4 => {
                // A zero byte and then a byte of names.
                bytes[NAME_SIZE - 2] = 0;
                bytes[NAME_SIZE - 1] = b'a';
            }
            5 => bytes.truncate(NAME_SIZE - 1),
            _ => bytes.push(0),
        }
        self.lent(&bytes)
    }

    /// Mostly the name of a snapshot.
    fn old_name(&mut self) -> Lent {
        let count = self.names.len() as u64;
        let name = match self.rng.below(30) {
            0 => self.active,
            1 | 2 => return self.no_name(),
            3 => *self.rng.pick(&self.pool),
            _ if count == 0 => *self.rng.pick(&self.pool),
            // Late ones more often, so that reverts do not empty the card each time.
            _ if self.rng.once_in(2) => {
                let near = self.rng.below(count.min(3)) as usize;
                self.names[self.names.len() - 1 - near]
            }
            _ => *self.rng.pick(&self.names),
        };
        self.lent(&name)
    }

    /// The name of a revert: mostly a snapshot's, and on revision 1 often that of the last one.
    fn name_to_revert(&mut self) -> Lent {
        match self.last {
            Some(name) if self.shape.revision == 1 && self.rng.once_in(3) => self.lent(&name),
            _ => self.old_name(),
        }
    }

    /// Mostly a name that is not in use.
    fn fresh_name(&mut self) -> Lent {
        let name = match self.rng.below(30) {
            0 => self.active,
            1 | 2 => return self.no_name(),
            3 if !self.names.is_empty() => *self.rng.pick(&self.names),
            4 => *self.rng.pick(&self.pool),
            _ => {
                let used = |name: &Name| *name == self.active || self.names.contains(name);
                let start = self.rng.below(self.pool.len() as u64) as usize;
                let mut turn = self.pool[start..].iter().chain(&self.pool[..start]);
                match turn.find(|name| !used(name)) {
                    Some(name) => *name,
                    None => random_name(&mut self.rng),
                }
            }
        };
        self.lent(&name)
    }
}

/// A card that is not yet formatted, on both sides, and the maker of its calls; whether the
/// card is a large one.
pub fn started(seed: u64, large: bool) -> (Pair, Maker, bool) {
    let mut rng = Rng::new(seed);
    let (shape, big) = random_shape(&mut rng, large);
    let before = unformatted(&mut rng, shape.blocks);
    let card = Lent::new(&mut rng, &before, 1_100);
    (Pair::new(card), Maker::new(rng, shape), big)
}

/// The sizes of a list for `calls` and `rollback`; `large` says whether large cards come.
pub fn random_shape(rng: &mut Rng, large: bool) -> (Shape, bool) {
    let kind = rng.below(400);
    let mut layout = rng.between(1, 2);
    let revision = rng.below(2) as u32;
    let mut snap_weight = rng.between(20, 200);
    let mut length = match rng.below(4) {
        0 => rng.between(5, 60),
        _ => rng.between(60, 240),
    };
    let blocks;
    let volume;
    let mut big = false;
    match kind {
        0..=3 if large => {
            big = true;
            blocks = match kind {
                0 | 1 => MOST_BLOCKS,
                _ => rng.between(2_000, MOST_BLOCKS),
            };
            volume = match rng.below(3) {
                0 => MOST_VOLUME as u32,
                _ => random_volume(rng, MOST_VOLUME),
            };
            length = rng.between(20, 60);
        }
        4..=23 => {
            // Many snapshots; in layout 1 with one table.
            if rng.once_in(2) {
                layout = 2;
            }
            snap_weight = MANY_SNAPS;
            length = rng.between(360, 480);
            let spare = *rng.pick(&[40, 100, 250]);
            blocks = MOST_DESCRIPTORS as u64 * opening_cost(layout, 1) + rng.between(0, spare);
            volume = match layout {
                1 => rng.between(1, TABLE_ENTRIES) as u32,
                _ => random_volume(rng, MOST_VOLUME),
            };
        }
        24..=43 => {
            // The card is as large as its opening, or a little larger.
            volume = random_volume(rng, MOST_VOLUME);
            let cost = opening_cost(layout, u64::from(volume));
            blocks = (cost + rng.below(5)).max(LEAST_BLOCKS);
        }
        _ => {
            blocks = match kind {
                44..=47 => rng.between(600, 8_000),
                48..=144 => rng.between(2, 12),
                145..=245 => rng.between(2, 60),
                _ => rng.between(2, 600),
            };
            volume = random_volume(rng, most_volume(layout, blocks));
        }
    }
    let shape = Shape {
        layout: layout as u32,
        volume,
        revision,
        blocks: blocks as usize,
        length,
        snap_weight,
    };
    (shape, big)
}
