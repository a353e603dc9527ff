//! A snapshot store on a card in memory.
//!
//! A card is an area of N blocks of 512 bytes, N from 2 to 65,536. It holds one active volume of L logical blocks,
//! L from 1 to 14,336, and at most 255 snapshots of it. [`Card`] has the ten calls: [`Card::ream`] formats the card,
//! [`Card::read`] and [`Card::write`] move one block, [`Card::read_at`] and [`Card::write_at`] move any bytes of the
//! volume, [`Card::visit`] gives the visit that a block dates from, [`Card::snap`] freezes the active volume under a
//! name, [`Card::revert`] goes back to a snapshot, [`Card::list`] lists them, and [`Card::check`] checks the card.
//!
//! This is a safe interface to `libmantreuy.a`, whose functions are proved to do what their contracts say. The boundary
//! itself is not proved: the declarations and the `unsafe` calls here are trusted. The library allocates nothing, keeps
//! no pointer and has no state of its own: everything is on the card. Of a card that is lost or copied out in the middle
//! of a call nothing is promised. `include/mantreuy.h` explains the words (descriptor, chain, entry, in place, the rules
//! of the check) and says which blocks a call alters. It needs rustc 1.82 or later.
//!
//! A call that is refused gives a [`Refusal`], and has altered no byte of the card or of a buffer. Of several refusals
//! that apply the first is given, in this order: [`Kind::BadArea`]; but for `ream`, [`Kind::UnsoundChain`]; then those
//! that stand under "Errors" of the call, as they stand there.
//!
//! [`Card::check`] and [`Card::write_at`] use at most 72 KB of stack, any other call at most 5 KB, and a caller that
//! is not optimised its own frames besides. Only [`Card::list`] allocates, for its records.
//!
//! ```
//! use mantreuy::{Card, Kind, Name, Target, BLOCK_SIZE, REVISION_0};
//!
//! let mut card = Card::new(vec![0; 16 * BLOCK_SIZE]);
//! let visit = Name::new("mon")?;
//! card.ream(2, 200, REVISION_0, Name::new("fs")?)?;
//! card.write(5, &[7; BLOCK_SIZE])?;
//! card.snap(visit)?;
//! assert_eq!(card.snap(visit).unwrap_err().kind, Kind::NameInUse);
//!
//! let mut block = [0; BLOCK_SIZE];
//! card.read(Target::Snapshot(visit), 5, &mut block)?;
//! assert_eq!(block, [7; BLOCK_SIZE]);
//! assert_eq!(card.visit(Target::Active, 5)?, Some(visit));
//! # Ok::<(), mantreuy::Refusal>(())
//! ```
#![no_std]
#![warn(missing_docs)]

extern crate alloc;

mod declared;

use alloc::vec::Vec;
use core::error::Error;
use core::fmt;
use core::str::FromStr;
use declared::*;

/// Bytes in a block.
pub const BLOCK_SIZE: usize = 512;
/// Bytes in a name.
pub const NAME_SIZE: usize = 16;
/// The fewest blocks of a card.
pub const FEWEST_BLOCKS: usize = 2;
/// The most blocks of a card.
pub const MOST_BLOCKS: usize = 65_536;
/// The most logical blocks of a volume.
pub const MOST_VOLUME: u32 = 14_336;
/// The most snapshots of a card.
pub const MOST_SNAPSHOTS: usize = 255;
/// The revision of a card on which a snapshot that a revert goes back to is gone afterwards.
pub const REVISION_0: u32 = 0;
/// The revision of a card on which it stays, and can be gone back to again.
pub const REVISION_1: u32 = 1;

/// Which condition a refused call met. Its number is that of the header.
#[derive(Clone, Copy, PartialEq, Eq, Hash, Debug)]
#[non_exhaustive]
pub enum Kind {
    /// The card's length is no multiple of 512, or N is outside 2..=65,536.
    BadArea = 1,
    /// The layout is not 1 or 2.
    BadLayout = 2,
    /// L is outside 1..=14,336.
    BadVolume = 3,
    /// The text is no name. Only the making of a [`Name`] gives this, and no call.
    BadName = 4,
    /// A volume of this layout and this L does not fit the card.
    CardTooSmall = 5,
    /// A descriptor of the card is unsound; the place is its block.
    UnsoundChain = 6,
    /// No snapshot has the name. The active volume's own name is not the name of a snapshot.
    NoSnapshot = 7,
    /// The logical block number is not below L.
    BadBlock = 8,
    /// The block lent is not 512 bytes. Blocks are arrays here, so no call gives this.
    BadLength = 9,
    /// An entry is not in place or, in [`Card::check`] and [`Card::write_at`], against a rule of the check; the place is
    /// the block that holds it.
    BadEntry = 10,
    /// The card has not as many free blocks as the call needs.
    NoRoom = 11,
    /// A snapshot or the active volume has the name.
    NameInUse = 12,
    /// There are 255 snapshots already.
    TooMany = 13,
    /// The list is shorter than the chain. [`Card::list`] lends one that is long enough, so no call gives this.
    ShortList = 14,
    /// Offset plus length is past the volume's end, 512 times L.
    PastEnd = 16,
    /// The revision is not 0 or 1.
    BadRevision = 17,
}

// Each kind with its text.
const KINDS: [(Kind, &str); 16] = [
    (Kind::BadArea, "not 2 to 65,536 blocks of 512 bytes"),
    (Kind::BadLayout, "the layout is not 1 or 2"),
    (Kind::BadVolume, "the volume is not 1 to 14,336 blocks"),
    (Kind::BadName, "not a name"),
    (Kind::CardTooSmall, "the volume does not fit the card"),
    (Kind::UnsoundChain, "this block's descriptor is unsound"),
    (Kind::NoSnapshot, "no snapshot has the name"),
    (Kind::BadBlock, "no such logical block"),
    (Kind::BadLength, "the block is not 512 bytes"),
    (Kind::BadEntry, "an entry in this block is at fault"),
    (Kind::NoRoom, "no room on the card"),
    (Kind::NameInUse, "the name is in use"),
    (Kind::TooMany, "there are 255 snapshots already"),
    (Kind::ShortList, "the list is shorter than the chain"),
    (Kind::PastEnd, "past the volume's end"),
    (Kind::BadRevision, "the revision is not 0 or 1"),
];

/// Why a call was refused.
#[derive(Clone, Copy, PartialEq, Eq, Hash, Debug)]
pub struct Refusal {
    /// Which condition was met.
    pub kind: Kind,
    /// The block at fault for [`Kind::UnsoundChain`] and [`Kind::BadEntry`], 0 for all others.
    pub place: u32,
}

impl Refusal {
    /// The number of the refusal, that of the header.
    pub fn number(&self) -> u32 {
        self.kind as u32
    }
}

impl fmt::Display for Refusal {
    fn fmt(&self, f: &mut fmt::Formatter<'_>) -> fmt::Result {
        let text = KINDS.iter().find(|(kind, _)| *kind == self.kind);
        let text = text.map_or("refused", |(_, text)| text);
        write!(f, "{text} (answer {}, place {})", self.number(), self.place)
    }
}

impl Error for Refusal {}

/// What a call gives that returns nothing but its answer.
pub type Answer = Result<(), Refusal>;

// The answer of a call, which returns its number and stores the place.
fn answer(call: impl FnOnce(&mut u32) -> u32) -> Answer {
    let mut place = 0;
    let number = call(&mut place);
    if number == 0 {
        return Ok(());
    }
    match KINDS.iter().find(|(kind, _)| *kind as u32 == number) {
        Some(&(kind, _)) => Err(Refusal { kind, place }),
        None => unreachable!("no kind has the number {number}"),
    }
}

/// A name: 1 to 16 of the bytes `a-z`, `0-9`, `.` and `-`. Names are ordered as their texts are.
#[derive(Clone, Copy, PartialEq, Eq, PartialOrd, Ord, Hash)]
pub struct Name([u8; NAME_SIZE]);

impl Name {
    /// The name that the text is.
    ///
    /// # Errors
    ///
    /// [`Kind::BadName`] where the text is empty, longer than 16 bytes, or has another byte in it.
    pub fn new(text: &str) -> Result<Name, Refusal> {
        let mut name = [0; NAME_SIZE];
        let to = name.as_mut_ptr();
        // SAFETY: two slices that do not overlap.
        answer(|_| unsafe { mantreuy_pad_name(text.as_ptr(), text.len(), to, NAME_SIZE) })?;
        Ok(Name(name))
    }

    /// The text of the name.
    pub fn as_str(&self) -> &str {
        let length = self.0.iter().position(|&b| b == 0).unwrap_or(NAME_SIZE);
        core::str::from_utf8(&self.0[..length]).expect("a name is ASCII")
    }

    /// The sixteen bytes of the name: the text, then zeros.
    pub fn as_bytes(&self) -> &[u8; NAME_SIZE] {
        &self.0
    }
}

impl FromStr for Name {
    type Err = Refusal;

    fn from_str(text: &str) -> Result<Name, Refusal> {
        Name::new(text)
    }
}

impl TryFrom<&str> for Name {
    type Error = Refusal;

    fn try_from(text: &str) -> Result<Name, Refusal> {
        Name::new(text)
    }
}

impl AsRef<str> for Name {
    fn as_ref(&self) -> &str {
        self.as_str()
    }
}

impl fmt::Display for Name {
    fn fmt(&self, f: &mut fmt::Formatter<'_>) -> fmt::Result {
        f.pad(self.as_str())
    }
}

impl fmt::Debug for Name {
    fn fmt(&self, f: &mut fmt::Formatter<'_>) -> fmt::Result {
        write!(f, "Name({:?})", self.as_str())
    }
}

/// What a read reads, and what a visit is asked of.
#[derive(Clone, Copy, PartialEq, Eq, Hash, Debug)]
pub enum Target {
    /// The active volume.
    Active,
    /// The snapshot that has the name.
    Snapshot(Name),
}

impl Target {
    // The target as the library takes it.
    fn lent(self) -> (u32, [u8; NAME_SIZE]) {
        match self {
            Target::Active => (0, [0; NAME_SIZE]),
            Target::Snapshot(name) => (1, name.0),
        }
    }
}

/// One descriptor of a card as a listing gives it.
#[derive(Clone, Copy, PartialEq, Eq, Hash, Debug)]
pub struct Record {
    /// The name of the snapshot or of the active volume.
    pub name: Name,
    /// The block of the descriptor.
    pub alpha: u32,
    /// The first block after its region.
    pub beta: u32,
    /// The block of the next descriptor, 0 in the active one.
    pub next: u32,
}

impl Record {
    /// Whether it is that of the active volume, the last of a listing. The blocks from its beta on are free.
    pub fn is_active(&self) -> bool {
        self.next == 0
    }

    // The record in the bytes that a listing has filled.
    fn filled(bytes: &[u8]) -> Record {
        let mut name = [0; NAME_SIZE];
        name.copy_from_slice(&bytes[..NAME_SIZE]);
        let number = |i| u32::from_le_bytes([bytes[i], bytes[i + 1], bytes[i + 2], bytes[i + 3]]);
        Record {
            name: Name(name),
            alpha: number(RECORD_ALPHA),
            beta: number(RECORD_BETA),
            next: number(RECORD_NEXT),
        }
    }
}

/// A card: an area of blocks of 512 bytes, lent or owned.
///
/// A card over `&[u8]` can be read, asked for visits, listed and checked, also by several threads at once. Over
/// `&mut [u8]`, an array or a `Vec<u8>` it has all calls. Any area can be taken as a card: each call looks at the whole
/// chain of descriptors anew and refuses what is no card.
#[derive(Clone)]
pub struct Card<A>(A);

impl<A: AsRef<[u8]>> Card<A> {
    /// Takes the area as a card. It is not altered.
    pub fn new(area: A) -> Card<A> {
        Card(area)
    }

    /// The bytes of the card.
    pub fn as_bytes(&self) -> &[u8] {
        self.0.as_ref()
    }

    /// Gives the area back.
    pub fn into_inner(self) -> A {
        self.0
    }

    /// Reads logical block `block` of the target into `out`. A block that the target has no content for reads as zeros.
    ///
    /// # Errors
    ///
    /// [`Kind::NoSnapshot`], [`Kind::BadBlock`], [`Kind::BadEntry`].
    pub fn read(&self, target: Target, block: u32, out: &mut [u8; BLOCK_SIZE]) -> Answer {
        let card = self.as_bytes();
        let (snapshot, name) = target.lent();
        // SAFETY: three slices that do not overlap, and the place.
        answer(|place| unsafe {
            mantreuy_read(
                card.as_ptr(),
                card.len(),
                snapshot,
                name.as_ptr(),
                NAME_SIZE,
                block,
                out.as_mut_ptr(),
                BLOCK_SIZE,
                place,
            )
        })
    }

    /// Reads the bytes of the target from byte `offset` on into `out`, as many as it is long, whatever blocks they are
    /// in. Byte i of logical block l is byte 512 times l plus i of the target. What the target has no content for reads
    /// as zeros. [`Card::write_at`] has an example.
    ///
    /// The chain is walked once, however many bytes are read, and no check is made. With an empty `out` the tests are
    /// the same, but no entry is followed.
    ///
    /// # Errors
    ///
    /// [`Kind::NoSnapshot`], [`Kind::PastEnd`], [`Kind::BadEntry`] for the first block, rising, whose entry is not in
    /// place.
    pub fn read_at(&self, target: Target, offset: u64, out: &mut [u8]) -> Answer {
        let card = self.as_bytes();
        let (snapshot, name) = target.lent();
        // SAFETY: three slices that do not overlap, and the place.
        answer(|place| unsafe {
            mantreuy_read_span(
                card.as_ptr(),
                card.len(),
                snapshot,
                name.as_ptr(),
                NAME_SIZE,
                offset,
                out.as_mut_ptr(),
                out.len(),
                place,
            )
        })
    }

    /// The visit that logical block `block` of the target dates from: the name of the snapshot, or of the active volume,
    /// whose region contains the block that a read gives. None where the target has no content for it.
    ///
    /// On a card that these calls have made since its format, it is the region in which the version that a read gives
    /// was last written; on any other card, the region that contains the block. The region is named as it is called now:
    /// the active one has the active volume's name. A revert on a card of [`REVISION_0`] makes the region of that
    /// snapshot the active one; on a card of [`REVISION_1`] it keeps the snapshot's name.
    ///
    /// ```
    /// # use mantreuy::{Card, Name, Target, BLOCK_SIZE, REVISION_0};
    /// # let (fs, mon) = (Name::new("fs")?, Name::new("mon")?);
    /// # let mut card = Card::new(vec![0; 16 * BLOCK_SIZE]);
    /// card.ream(2, 200, REVISION_0, fs)?;
    /// card.write(5, &[7; BLOCK_SIZE])?;
    /// card.write(6, &[7; BLOCK_SIZE])?;
    /// card.snap(mon)?;
    /// card.write(5, &[9; BLOCK_SIZE])?;
    /// assert_eq!(card.visit(Target::Active, 5)?, Some(fs));
    /// assert_eq!(card.visit(Target::Active, 6)?, Some(mon));
    /// assert_eq!(card.visit(Target::Active, 7)?, None);
    /// assert_eq!(card.visit(Target::Snapshot(mon), 5)?, Some(mon));
    ///
    /// card.revert(mon)?;
    /// assert_eq!(card.visit(Target::Active, 6)?, Some(fs));
    /// # Ok::<(), mantreuy::Refusal>(())
    /// ```
    ///
    /// # Errors
    ///
    /// [`Kind::NoSnapshot`], [`Kind::BadBlock`], [`Kind::BadEntry`].
    pub fn visit(&self, target: Target, block: u32) -> Result<Option<Name>, Refusal> {
        let card = self.as_bytes();
        let (snapshot, name) = target.lent();
        let mut visit = [0; NAME_SIZE];
        let to = visit.as_mut_ptr();
        // SAFETY: two slices and sixteen bytes that do not overlap, and the place.
        answer(|place| unsafe {
            mantreuy_visit(
                card.as_ptr(),
                card.len(),
                snapshot,
                name.as_ptr(),
                NAME_SIZE,
                block,
                to,
                place,
            )
        })?;
        Ok((visit != [0; NAME_SIZE]).then_some(Name(visit)))
    }

    /// Lists the snapshots, oldest first, and the active volume after them.
    ///
    /// # Errors
    ///
    /// None but those of every call.
    pub fn list(&self) -> Result<Vec<Record>, Refusal> {
        let card = self.as_bytes();
        let mut records = alloc::vec![0; RECORD_SIZE * (MOST_SNAPSHOTS + 1)];
        let (to, room) = (records.as_mut_ptr(), records.len());
        // SAFETY: two slices that do not overlap, and the place.
        answer(|place| unsafe { mantreuy_list(card.as_ptr(), card.len(), to, room, place) })?;
        let mut list = Vec::new();
        for bytes in records.chunks_exact(RECORD_SIZE) {
            let record = Record::filled(bytes);
            list.push(record);
            if record.is_active() {
                break;
            }
        }
        Ok(list)
    }

    /// Checks the whole card. On a card that passes, every accepted call leaves one that passes.
    ///
    /// # Errors
    ///
    /// [`Kind::BadEntry`] for the first fault.
    pub fn check(&self) -> Answer {
        let card = self.as_bytes();
        // SAFETY: a slice, and the place.
        answer(|place| unsafe { mantreuy_check(card.as_ptr(), card.len(), place) })
    }
}

impl<A: AsRef<[u8]> + AsMut<[u8]>> Card<A> {
    // The card as the library takes it.
    fn lent(&mut self) -> (*mut u8, usize) {
        let card = self.0.as_mut();
        (card.as_mut_ptr(), card.len())
    }

    /// Formats the card: one active volume of `volume` logical blocks, all of which read as zeros, and no snapshot. The
    /// name becomes the active volume's own.
    ///
    /// Opening the volume, and each snapshot of it, takes one block in layout 2, and one block more for each 128
    /// logical blocks, or part of 128, in layout 1.
    ///
    /// The revision is [`REVISION_0`] or [`REVISION_1`], and says what [`Card::revert`] does with the snapshot that it
    /// goes back to. The interface changed with it: a caller that was written without it gives [`REVISION_0`], and
    /// its cards are the same as before, byte for byte.
    ///
    /// # Errors
    ///
    /// [`Kind::BadLayout`], [`Kind::BadVolume`], [`Kind::BadRevision`], [`Kind::CardTooSmall`].
    pub fn ream(&mut self, layout: u32, volume: u32, revision: u32, name: Name) -> Answer {
        let (card, n) = self.lent();
        let name = name.0.as_ptr();
        // SAFETY: two slices that do not overlap, and the place.
        answer(|place| unsafe {
            mantreuy_ream(card, n, layout, volume, revision, name, NAME_SIZE, place)
        })
    }

    /// Writes `bytes` as logical block `block` of the active volume. No snapshot changes.
    ///
    /// # Errors
    ///
    /// [`Kind::BadBlock`], [`Kind::BadEntry`], [`Kind::NoRoom`].
    pub fn write(&mut self, block: u32, bytes: &[u8; BLOCK_SIZE]) -> Answer {
        let (card, n) = self.lent();
        // SAFETY: two slices that do not overlap, and the place.
        answer(|place| unsafe { mantreuy_write(card, n, block, bytes.as_ptr(), BLOCK_SIZE, place) })
    }

    /// Writes `bytes` to the active volume from byte `offset` on, whatever blocks they are in: all of them, or none
    /// where it is refused. The other bytes of these blocks keep their value, or are zero where a block had no content.
    /// No snapshot changes. The card is then that which a [`Card::write`] of each of these blocks leaves, one after the
    /// other, rising.
    ///
    /// Before its first store it makes the whole check of [`Card::check`], also where `bytes` is empty. That visits
    /// every entry of every descriptor, so its time grows with L and with the number of snapshots. [`Card::write`] makes
    /// none: where the check takes too long, as it may on the old board of a home machine, a caller can read, change and
    /// write whole blocks, of which the first ones may then be accepted and a later one refused.
    ///
    /// ```
    /// # use mantreuy::{Card, Kind, Name, Target, BLOCK_SIZE, REVISION_0};
    /// # let (fs, mon) = (Name::new("fs")?, Name::new("mon")?);
    /// # let mut card = Card::new(vec![0; 16 * BLOCK_SIZE]);
    /// // records of 700 bytes; the third is in three blocks
    /// card.ream(2, 8, REVISION_0, fs)?;
    /// for (k, fill) in [1, 2, 3, 4].into_iter().enumerate() {
    ///     card.write_at(700 * k as u64, &[fill; 700])?;
    /// }
    /// card.snap(mon)?;
    /// card.write_at(700 * 2, &[9; 700])?;
    ///
    /// let mut record = [0; 700];
    /// card.read_at(Target::Active, 700 * 2, &mut record)?;
    /// assert_eq!(record, [9; 700]);
    /// card.read_at(Target::Active, 700 * 3, &mut record)?;
    /// assert_eq!(record, [4; 700]);
    /// card.read_at(Target::Snapshot(mon), 700 * 2, &mut record)?;
    /// assert_eq!(record, [3; 700]);
    ///
    /// // eight blocks have 4,096 bytes, which is five records and a part of one
    /// let refusal = card.write_at(700 * 5, &[6; 700]).unwrap_err();
    /// assert_eq!(refusal.kind, Kind::PastEnd);
    /// # Ok::<(), mantreuy::Refusal>(())
    /// ```
    ///
    /// # Errors
    ///
    /// [`Kind::PastEnd`], [`Kind::BadEntry`] for the first fault of the check, [`Kind::NoRoom`].
    pub fn write_at(&mut self, offset: u64, bytes: &[u8]) -> Answer {
        let (card, n) = self.lent();
        // SAFETY: two slices that do not overlap, and the place.
        answer(|place| unsafe {
            mantreuy_write_span(card, n, offset, bytes.as_ptr(), bytes.len(), place)
        })
    }

    /// Freezes the active volume as a snapshot under the name. The active volume keeps its own name and its content.
    ///
    /// # Errors
    ///
    /// [`Kind::NameInUse`], [`Kind::TooMany`], [`Kind::NoRoom`].
    pub fn snap(&mut self, name: Name) -> Answer {
        let (card, n) = self.lent();
        // SAFETY: two slices that do not overlap, and the place.
        answer(|place| unsafe { mantreuy_snap(card, n, name.0.as_ptr(), NAME_SIZE, place) })
    }

    /// Makes the content of the snapshot that of the active volume. All later snapshots are gone. On a card of
    /// [`REVISION_0`] the snapshot itself is gone too; on a card of [`REVISION_1`] it stays, can be gone back to any
    /// number of times, and the active volume goes on in a region right after it. The blocks after the active region
    /// are free again; their bytes are not wiped.
    ///
    /// # Errors
    ///
    /// [`Kind::NoSnapshot`].
    pub fn revert(&mut self, name: Name) -> Answer {
        let (card, n) = self.lent();
        // SAFETY: two slices that do not overlap, and the place.
        answer(|place| unsafe { mantreuy_revert(card, n, name.0.as_ptr(), NAME_SIZE, place) })
    }
}

impl<A: AsRef<[u8]>> fmt::Debug for Card<A> {
    fn fmt(&self, f: &mut fmt::Formatter<'_>) -> fmt::Result {
        write!(f, "Card({} bytes)", self.as_bytes().len())
    }
}
