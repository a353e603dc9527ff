//! The card store of document 01, with document 02's revisions, the visit that a block dates from,
//! and spans, on an area of bytes of any length and content.
//! Each call is written as its ladder of refusals, top to bottom, and then what it does.
//! Numbers are u64 and physical unless they are `Logical`.

use crate::numbers::*;
use std::collections::BTreeSet;
use std::ops::Range;

/// A logical block number.
#[derive(Clone, Copy, PartialEq, Eq, Debug)]
pub struct Logical(pub u64);

/// A name as a descriptor holds it.
pub type Name = [u8; NAME_SIZE];

/// Number and place; accepted is 0 and 0.
#[derive(Clone, Copy, PartialEq, Eq, Debug)]
pub struct Answer {
    pub number: u64,
    pub place: u64,
}

pub const ACCEPTED: Answer = Answer {
    number: 0,
    place: 0,
};

/// What a read, of a block or of a span, or a visit is of. The text of a snapshot's name may be no
/// name.
#[derive(Clone, PartialEq, Eq, Debug)]
pub enum Target {
    Active,
    Snapshot(Vec<u8>),
}

/// One record of a listing.
#[derive(Clone, Copy, PartialEq, Eq, Debug)]
pub struct Record {
    pub name: Name,
    pub alpha: u64,
    pub beta: u64,
    pub next: u64,
}

/// A record that nothing has filled.
pub const NOTHING: Record = Record {
    name: [0; NAME_SIZE],
    alpha: 0,
    beta: 0,
    next: 0,
};

/// The numbers and the name of a descriptor block.
#[derive(Clone, Copy)]
struct Descriptor {
    layout: u64,
    volume: u64,
    alpha: u64,
    beta: u64,
    next: u64,
    name: Name,
    revision: u64,
}

fn refusal(number: u64, place: u64) -> Answer {
    Answer { number, place }
}

/// The byte at which a block begins.
fn start(block: u64) -> usize {
    block as usize * BLOCK
}

/// The bytes of a block.
fn block_at(card: &[u8], block: u64) -> &[u8] {
    &card[start(block)..start(block) + BLOCK]
}

/// Puts 512 bytes into a block.
fn store_block(card: &mut [u8], block: u64, bytes: &[u8]) {
    card[start(block)..start(block) + BLOCK].copy_from_slice(bytes);
}

/// A stored number: 32 bits, lowest byte first.
pub fn number_at(bytes: &[u8], at: usize) -> u64 {
    bytes[at] as u64
        + bytes[at + 1] as u64 * 256
        + bytes[at + 2] as u64 * 65_536
        + bytes[at + 3] as u64 * 16_777_216
}

pub fn store_number(bytes: &mut [u8], at: usize, value: u64) {
    bytes[at] = (value % 256) as u8;
    bytes[at + 1] = (value / 256 % 256) as u8;
    bytes[at + 2] = (value / 65_536 % 256) as u8;
    bytes[at + 3] = (value / 16_777_216) as u8;
}

/// Entry i of Phi in a descriptor block.
fn phi_entry(card: &[u8], descriptor: u64, i: u64) -> u64 {
    number_at(block_at(card, descriptor), phi_byte(i))
}

/// Entry j of a table block.
fn table_entry(card: &[u8], table: u64, j: u64) -> u64 {
    number_at(block_at(card, table), entry_byte(j))
}

fn is_name_byte(byte: u8) -> bool {
    byte.is_ascii_lowercase() || byte.is_ascii_digit() || byte == b'.' || byte == b'-'
}

/// Whether a text is 1 to 16 of the bytes of names.
pub fn is_name_text(text: &[u8]) -> bool {
    !text.is_empty() && text.len() <= NAME_SIZE && text.iter().all(|byte| is_name_byte(*byte))
}

/// A text that is a name, with its zero bytes.
pub fn padded(text: &[u8]) -> Name {
    let mut name = [0; NAME_SIZE];
    name[..text.len()].copy_from_slice(text);
    name
}

/// A stored name without the zero bytes at its end.
pub fn unpadded(name: &Name) -> &[u8] {
    let mut length = NAME_SIZE;
    while length > 0 && name[length - 1] == 0 {
        length -= 1;
    }
    &name[..length]
}

/// A name, or none by zeros, as it is shown where it is not the expected one.
pub fn shown(name: &Name) -> String {
    format!("\"{}\"", unpadded(name).escape_ascii())
}

/// Whether sixteen stored bytes are a name.
fn is_stored_name(name: &Name) -> bool {
    is_name_text(unpadded(name))
}

/// n: how many table blocks a volume has.
fn tables_of(volume: u64) -> u64 {
    (volume + TABLE_ENTRIES - 1) / TABLE_ENTRIES
}

/// c: how many blocks open a region.
pub fn opening_cost(layout: u64, volume: u64) -> u64 {
    if layout == 1 {
        1 + tables_of(volume)
    } else {
        1
    }
}

impl Descriptor {
    fn opening(&self) -> u64 {
        opening_cost(self.layout, self.volume)
    }
}

/// N, or the refusal 1.
fn blocks_of(card: &[u8]) -> Result<u64, Answer> {
    let blocks = (card.len() / BLOCK) as u64;
    if card.len() % BLOCK != 0 || blocks < LEAST_BLOCKS || blocks > MOST_BLOCKS {
        return Err(refusal(1, 0));
    }
    Ok(blocks)
}

/// The name that a text gives, or the refusal 4.
fn name_given(text: &[u8]) -> Result<Name, Answer> {
    if !is_name_text(text) {
        return Err(refusal(4, 0));
    }
    Ok(padded(text))
}

/// The fields of a block taken as a descriptor, sound or not.
fn descriptor_at(card: &[u8], block: u64) -> Descriptor {
    let bytes = block_at(card, block);
    let mut name = [0; NAME_SIZE];
    name.copy_from_slice(&bytes[NAME..NAME_END]);
    Descriptor {
        layout: number_at(bytes, LAYOUT),
        volume: number_at(bytes, VOLUME),
        alpha: number_at(bytes, ALPHA),
        beta: number_at(bytes, BETA),
        next: number_at(bytes, NEXT),
        name,
        revision: number_at(bytes, REVISION),
    }
}

/// Whether the descriptor at `block`, met after the `earlier` ones, is sound.
fn is_sound(card: &[u8], blocks: u64, block: u64, earlier: &[Descriptor]) -> bool {
    let bytes = block_at(card, block);
    let this = descriptor_at(card, block);
    let first = descriptor_at(card, 0);
    let zero = |part: &[u8]| part.iter().all(|byte| *byte == 0);

    bytes[..MARK.len()] == MARK[..]
        && (this.layout == 1 || this.layout == 2)
        && (this.volume >= 1 && this.volume <= MOST_VOLUME)
        && is_stored_name(&this.name)
        && (this.revision == 0 || this.revision == 1)
        && zero(&bytes[REVISION_END..PHI])
        && (this.layout == 2 || zero(&bytes[PHI..]))
        && this.layout == first.layout
        && this.volume == first.volume
        && this.revision == first.revision
        && this.alpha == block
        && this.alpha + this.opening() <= this.beta
        && this.beta <= blocks
        && (this.next == 0 || (this.next == this.beta && this.beta < blocks))
        && earlier.iter().all(|other| other.name != this.name)
        && earlier.len() < MOST_DESCRIPTORS
}

/// The descriptors in chain order, or the refusal 6 at the first unsound one.
fn chain_of(card: &[u8], blocks: u64) -> Result<Vec<Descriptor>, Answer> {
    let mut chain = Vec::new();
    let mut block = 0;
    loop {
        if !is_sound(card, blocks, block, &chain) {
            return Err(refusal(6, block));
        }
        let descriptor = descriptor_at(card, block);
        chain.push(descriptor);
        if descriptor.next == 0 {
            return Ok(chain);
        }
        block = descriptor.next;
    }
}

/// A card on which the places that the calls share have been passed.
struct Opened {
    /// N.
    blocks: u64,
    chain: Vec<Descriptor>,
}

/// The places that all calls but ream share, top to bottom: area, the name given, the
/// caller's block by its length, chain.
fn open(card: &[u8], name: Option<&[u8]>, block: Option<usize>) -> Result<Opened, Answer> {
    let blocks = blocks_of(card)?;
    name.map(name_given).transpose()?;
    if block.is_some_and(|length| length != BLOCK) {
        return Err(refusal(9, 0));
    }
    let chain = chain_of(card, blocks)?;
    Ok(Opened { blocks, chain })
}

impl Opened {
    fn active(&self) -> Descriptor {
        self.chain[self.chain.len() - 1]
    }

    /// The snapshot that has the name, or the refusal 7. The active descriptor is none.
    fn snapshot(&self, text: &[u8]) -> Result<Descriptor, Answer> {
        let name = padded(text);
        let mut snapshots = self.chain[..self.chain.len() - 1].iter();
        let found = snapshots.find(|descriptor| descriptor.name == name);
        found.copied().ok_or(refusal(7, 0))
    }
}

/// Whether an entry followed from `descriptor` is in place.
fn in_place(entry: u64, descriptor: &Descriptor, chain: &[Descriptor]) -> bool {
    if entry == 0 {
        return true;
    }
    if entry >= descriptor.beta {
        return false;
    }
    for other in chain {
        let is_descriptor = entry == other.alpha;
        let is_table = other.layout == 1
            && entry > other.alpha
            && entry <= other.alpha + tables_of(other.volume);
        if is_descriptor || is_table {
            return false;
        }
    }
    true
}

/// What following the entries of a logical block gives.
struct Found {
    /// The table block, 0 where Phi's entry is nil.
    table: u64,
    /// The data block, 0 where an entry on the way is nil.
    data: u64,
    /// The descriptor whose region contains the data block, none where that is nil.
    region: Option<Descriptor>,
}

impl Found {
    /// Whether a write goes to the data block itself. Nil is tested first.
    fn is_overwritten(&self, active: &Descriptor) -> bool {
        self.data != 0 && self.data >= active.alpha
    }

    /// Whether a write that takes a data block takes a table block before it.
    fn wants_table(&self, active: &Descriptor) -> bool {
        active.layout == 2 && (self.table == 0 || self.table < active.alpha)
    }
}

/// The descriptor whose region, from alpha up to beta, contains a block.
fn region_of(chain: &[Descriptor], block: u64) -> Option<Descriptor> {
    let mut regions = chain.iter();
    let found = regions.find(|descriptor| descriptor.alpha <= block && block < descriptor.beta);
    found.copied()
}

/// Follows Phi's entry, then Pi's; or the refusal 8, or 10 at the block that holds the
/// entry not in place.
fn find(
    card: &[u8],
    chain: &[Descriptor],
    descriptor: &Descriptor,
    logical: Logical,
) -> Result<Found, Answer> {
    if logical.0 >= descriptor.volume {
        return Err(refusal(8, 0));
    }
    let i = logical.0 / TABLE_ENTRIES;
    let j = logical.0 % TABLE_ENTRIES;
    let table = if descriptor.layout == 1 {
        descriptor.alpha + 1 + i
    } else {
        let entry = phi_entry(card, descriptor.alpha, i);
        if !in_place(entry, descriptor, chain) {
            return Err(refusal(10, descriptor.alpha));
        }
        entry
    };
    let data = match table {
        0 => 0,
        _ => table_entry(card, table, j),
    };
    if !in_place(data, descriptor, chain) {
        return Err(refusal(10, table));
    }
    // Nil first: block 0 is in a region too.
    let region = match data {
        0 => None,
        _ => region_of(chain, data),
    };
    Ok(Found {
        table,
        data,
        region,
    })
}

/// Opens a target: the places of a read down to 7, without 9 where no block is lent. Gives the
/// chain, and the descriptor that the target has in it.
fn open_target(
    card: &[u8],
    target: &Target,
    block: Option<usize>,
) -> Result<(Vec<Descriptor>, Descriptor), Answer> {
    let name = match target {
        Target::Active => None,
        Target::Snapshot(name) => Some(&name[..]),
    };
    let opened = open(card, name, block)?;
    let descriptor = match name {
        None => opened.active(),
        Some(name) => opened.snapshot(name)?,
    };
    Ok((opened.chain, descriptor))
}

/// Finds a logical block of a target: the places of a read, top to bottom, without 9 where no
/// block is lent.
fn find_of(
    card: &[u8],
    target: &Target,
    block: Option<usize>,
    logical: Logical,
) -> Result<Found, Answer> {
    let (chain, descriptor) = open_target(card, target, block)?;
    find(card, &chain, &descriptor, logical)
}

/// The content of a found block: zeros where it is nil.
fn content(card: &[u8], found: &Found) -> Vec<u8> {
    match found.data {
        0 => vec![0; BLOCK],
        data => block_at(card, data).to_vec(),
    }
}

/// What a span has of one logical block.
struct Piece {
    logical: Logical,
    /// The bytes of the block.
    of_block: Range<usize>,
    /// The bytes of the lent memory.
    of_lent: Range<usize>,
}

/// Splits a span at the block boundaries, rising; or the refusal 16. Offset and length are added
/// without a limit.
fn split(volume: u64, offset: u64, length: usize) -> Result<Vec<Piece>, Answer> {
    let end = u128::from(volume) * BLOCK as u128;
    if u128::from(offset) + length as u128 > end {
        return Err(refusal(16, 0));
    }
    let mut pieces = Vec::new();
    let mut done = 0;
    while done < length {
        let at = offset as usize + done;
        let first = at % BLOCK;
        let taken = (BLOCK - first).min(length - done);
        pieces.push(Piece {
            logical: Logical((at / BLOCK) as u64),
            of_block: first..first + taken,
            of_lent: done..done + taken,
        });
        done += taken;
    }
    Ok(pieces)
}

/// The answer of a call that was carried out or refused.
fn answered(result: Result<(), Answer>) -> Answer {
    match result {
        Ok(()) => ACCEPTED,
        Err(refused) => refused,
    }
}

/// Formats the whole area.
pub fn ream(card: &mut [u8], layout: u64, volume: u64, revision: u64, name: &[u8]) -> Answer {
    answered(try_ream(card, layout, volume, revision, name))
}

fn try_ream(
    card: &mut [u8],
    layout: u64,
    volume: u64,
    revision: u64,
    name: &[u8],
) -> Result<(), Answer> {
    let blocks = blocks_of(card)?;
    if layout != 1 && layout != 2 {
        return Err(refusal(2, 0));
    }
    if volume < 1 || volume > MOST_VOLUME {
        return Err(refusal(3, 0));
    }
    if revision != 0 && revision != 1 {
        return Err(refusal(17, 0));
    }
    let name = name_given(name)?;
    let cost = opening_cost(layout, volume);
    if cost > blocks {
        return Err(refusal(5, 0));
    }

    let mut first = [0; BLOCK];
    first[..MARK.len()].copy_from_slice(MARK);
    store_number(&mut first, LAYOUT, layout);
    store_number(&mut first, VOLUME, volume);
    store_number(&mut first, ALPHA, 0);
    store_number(&mut first, BETA, cost);
    store_number(&mut first, NEXT, 0);
    first[NAME..NAME_END].copy_from_slice(&name);
    store_number(&mut first, REVISION, revision);
    store_block(card, 0, &first);
    for table in 1..cost {
        store_block(card, table, &[0; BLOCK]);
    }
    Ok(())
}

/// Reads one logical block of the target into the lent block.
pub fn read(card: &[u8], target: &Target, logical: Logical, lent: &mut [u8]) -> Answer {
    answered(try_read(card, target, logical, lent))
}

fn try_read(card: &[u8], target: &Target, logical: Logical, lent: &mut [u8]) -> Result<(), Answer> {
    let found = find_of(card, target, Some(lent.len()), logical)?;

    lent.copy_from_slice(&content(card, &found));
    Ok(())
}

/// Reads from a byte of the target's volume on into the lent memory, as many bytes as it has.
pub fn read_span(card: &[u8], target: &Target, offset: u64, lent: &mut [u8]) -> Answer {
    answered(try_read_span(card, target, offset, lent))
}

fn try_read_span(card: &[u8], target: &Target, offset: u64, lent: &mut [u8]) -> Result<(), Answer> {
    let (chain, descriptor) = open_target(card, target, None)?;
    let pieces = split(descriptor.volume, offset, lent.len())?;
    // All blocks are found before the first byte is filled.
    let mut blocks = Vec::new();
    for piece in &pieces {
        let found = find(card, &chain, &descriptor, piece.logical)?;
        blocks.push(content(card, &found));
    }

    for (piece, block) in pieces.into_iter().zip(blocks) {
        lent[piece.of_lent].copy_from_slice(&block[piece.of_block]);
    }
    Ok(())
}

/// The name of the descriptor whose region holds what a read of the target gives; none where that
/// is nil, and where the call is refused.
pub fn visit(card: &[u8], target: &Target, logical: Logical) -> (Answer, Option<Name>) {
    match find_of(card, target, None, logical) {
        Ok(found) => (ACCEPTED, found.region.map(|descriptor| descriptor.name)),
        Err(refused) => (refused, None),
    }
}

/// Writes one logical block of the active store from the lent block.
pub fn write(card: &mut [u8], logical: Logical, lent: &[u8]) -> Answer {
    answered(try_write(card, logical, lent))
}

fn try_write(card: &mut [u8], logical: Logical, lent: &[u8]) -> Result<(), Answer> {
    let opened = open(card, None, Some(lent.len()))?;
    let active = opened.active();
    let found = find(card, &opened.chain, &active, logical)?;
    if found.is_overwritten(&active) {
        store_block(card, found.data, lent);
        return Ok(());
    }
    let new_table = found.wants_table(&active);
    let need = if new_table { 2 } else { 1 };
    if active.beta + need > opened.blocks {
        return Err(refusal(11, 0));
    }

    let i = logical.0 / TABLE_ENTRIES;
    let j = logical.0 % TABLE_ENTRIES;
    let (table, data) = if new_table {
        (active.beta, active.beta + 1)
    } else {
        (found.table, active.beta)
    };
    let mut entries = if found.table == 0 {
        vec![0; BLOCK]
    } else {
        block_at(card, found.table).to_vec()
    };
    store_number(&mut entries, entry_byte(j), data);
    let mut opening = block_at(card, active.alpha).to_vec();
    if new_table {
        store_number(&mut opening, phi_byte(i), table);
    }
    store_number(&mut opening, BETA, active.beta + need);
    store_block(card, table, &entries);
    store_block(card, data, lent);
    store_block(card, active.alpha, &opening);
    Ok(())
}

/// Writes the lent memory from a byte of the active store's volume on, whole or not at all.
pub fn write_span(card: &mut [u8], offset: u64, lent: &[u8]) -> Answer {
    answered(try_write_span(card, offset, lent))
}

fn try_write_span(card: &mut [u8], offset: u64, lent: &[u8]) -> Result<(), Answer> {
    let opened = open(card, None, None)?;
    let active = opened.active();
    let pieces = split(active.volume, offset, lent.len())?;
    check_entries(card, &opened)?;
    let mut need = 0;
    // Groups for which a block of the span has taken a table: the blocks after it find that table.
    let mut served = BTreeSet::new();
    let mut blocks = Vec::new();
    for piece in &pieces {
        let found = find(card, &opened.chain, &active, piece.logical)?;
        if !found.is_overwritten(&active) {
            let group = piece.logical.0 / TABLE_ENTRIES;
            let new_table = found.wants_table(&active) && served.insert(group);
            need += if new_table { 2 } else { 1 };
        }
        blocks.push(content(card, &found));
    }
    if active.beta + need > opened.blocks {
        return Err(refusal(11, 0));
    }

    // None of these is refused: the card passes check and has room for all.
    for (piece, mut block) in pieces.into_iter().zip(blocks) {
        block[piece.of_block].copy_from_slice(&lent[piece.of_lent]);
        try_write(card, piece.logical, &block)?;
    }
    Ok(())
}

/// Opens a region at the beta of a descriptor: a copy of its block and of its layout 1 tables,
/// with alpha, beta and next of its own, under the name.
fn open_region(card: &mut [u8], from: &Descriptor, name: &Name) {
    let cost = from.opening();
    for k in 0..cost {
        let copy = block_at(card, from.alpha + k).to_vec();
        store_block(card, from.beta + k, &copy);
    }
    let new = start(from.beta);
    store_number(card, new + ALPHA, from.beta);
    store_number(card, new + BETA, from.beta + cost);
    store_number(card, new + NEXT, 0);
    card[new + NAME..new + NAME_END].copy_from_slice(name);
}

/// Freezes the active store under a name and opens a new region after it.
pub fn snap(card: &mut [u8], name: &[u8]) -> Answer {
    answered(try_snap(card, name))
}

fn try_snap(card: &mut [u8], name: &[u8]) -> Result<(), Answer> {
    let opened = open(card, Some(name), None)?;
    let name = padded(name);
    if opened
        .chain
        .iter()
        .any(|descriptor| descriptor.name == name)
    {
        return Err(refusal(12, 0));
    }
    if opened.chain.len() - 1 >= MOST_SNAPSHOTS {
        return Err(refusal(13, 0));
    }
    let active = opened.active();
    if active.beta + active.opening() > opened.blocks {
        return Err(refusal(11, 0));
    }

    open_region(card, &active, &active.name);
    let old = start(active.alpha);
    store_number(card, old + NEXT, active.beta);
    card[old + NAME..old + NAME_END].copy_from_slice(&name);
    Ok(())
}

/// Makes a snapshot the active store again. On revision 0 it is the active one from then on; on
/// revision 1 it stays, and a new region is opened from it.
pub fn revert(card: &mut [u8], name: &[u8]) -> Answer {
    answered(try_revert(card, name))
}

fn try_revert(card: &mut [u8], name: &[u8]) -> Result<(), Answer> {
    let opened = open(card, Some(name), None)?;
    let snapshot = opened.snapshot(name)?;
    let active = opened.active().name;

    if snapshot.revision == 1 {
        // The next descriptor is sound and stands at the snapshot's beta: there is room.
        open_region(card, &snapshot, &active);
        return Ok(());
    }
    let old = start(snapshot.alpha);
    store_number(card, old + NEXT, 0);
    card[old + NAME..old + NAME_END].copy_from_slice(&active);
    Ok(())
}

/// Fills the lent list, one record for each descriptor; also gives how many were filled.
pub fn list(card: &[u8], lent: &mut [Record]) -> (Answer, usize) {
    match try_list(card, lent) {
        Ok(filled) => (ACCEPTED, filled),
        Err(refused) => (refused, 0),
    }
}

fn try_list(card: &[u8], lent: &mut [Record]) -> Result<usize, Answer> {
    let chain = open(card, None, None)?.chain;
    if lent.len() < chain.len() {
        return Err(refusal(14, 0));
    }

    for (record, descriptor) in lent.iter_mut().zip(&chain) {
        *record = Record {
            name: descriptor.name,
            alpha: descriptor.alpha,
            beta: descriptor.beta,
            next: descriptor.next,
        };
    }
    Ok(chain.len())
}

/// Answers 0 or the first fault.
pub fn check(card: &[u8]) -> Answer {
    answered(try_check(card))
}

fn try_check(card: &[u8]) -> Result<(), Answer> {
    let opened = open(card, None, None)?;
    check_entries(card, &opened)
}

/// The entries of all descriptors in chain order, or the refusal 10 at the first fault.
fn check_entries(card: &[u8], opened: &Opened) -> Result<(), Answer> {
    for descriptor in &opened.chain {
        if let Some(place) = first_fault(card, opened.blocks, &opened.chain, descriptor) {
            return Err(refusal(10, place));
        }
    }
    Ok(())
}

/// The block that holds the first faulty entry of a descriptor: Phi's entry, then that
/// table's entries, rising.
fn first_fault(
    card: &[u8],
    blocks: u64,
    chain: &[Descriptor],
    descriptor: &Descriptor,
) -> Option<u64> {
    let tables = tables_of(descriptor.volume);
    let mut named = vec![false; blocks as usize];
    if descriptor.layout == 1 {
        for i in 0..tables {
            let table = descriptor.alpha + 1 + i;
            if table_has_fault(card, chain, descriptor, i, table, &mut named) {
                return Some(table);
            }
        }
        return None;
    }
    for i in 0..PHI_ENTRIES {
        let table = phi_entry(card, descriptor.alpha, i);
        if table == 0 {
            continue;
        }
        if !in_place(table, descriptor, chain) || i >= tables || named[table as usize] {
            return Some(descriptor.alpha);
        }
        named[table as usize] = true;
        if table_has_fault(card, chain, descriptor, i, table, &mut named) {
            return Some(table);
        }
    }
    None
}

/// Whether an entry of the i-th table of a descriptor is against a rule of check.
fn table_has_fault(
    card: &[u8],
    chain: &[Descriptor],
    descriptor: &Descriptor,
    i: u64,
    table: u64,
    named: &mut [bool],
) -> bool {
    for j in 0..TABLE_ENTRIES {
        let entry = table_entry(card, table, j);
        if entry == 0 {
            continue;
        }
        let past_volume = i * TABLE_ENTRIES + j >= descriptor.volume;
        if !in_place(entry, descriptor, chain) || past_volume || named[entry as usize] {
            return true;
        }
        let new_in_old_table = entry >= descriptor.alpha && table < descriptor.alpha;
        if descriptor.layout == 2 && new_in_old_table {
            return true;
        }
        named[entry as usize] = true;
    }
    false
}
