// The ten calls in plain Rust, without proofs and written for speed: what the benchmark compares the library with.
use crate::declared::RECORD_SIZE;
use crate::numbers::*;
use std::mem::MaybeUninit;
use std::ops::Range;

type Entry = [u8; NUMBER];

// The number and the place of a refusal.
#[derive(Clone, Copy, PartialEq, Eq, Debug)]
pub struct Refusal {
    pub number: u32,
    pub place: u32,
}

pub type Answer = Result<(), Refusal>;

fn refuse<T>(number: u32) -> Result<T, Refusal> {
    refuse_at(number, 0)
}

fn refuse_at<T>(number: u32, place: u32) -> Result<T, Refusal> {
    Err(Refusal { number, place })
}

fn get(b: &Block, at: usize) -> u32 {
    u32::from_le_bytes(b[at..at + NUMBER].try_into().unwrap())
}

fn put(b: &mut Block, at: usize, v: u32) {
    b[at..at + NUMBER].copy_from_slice(&v.to_le_bytes());
}

fn name_of(b: &Block) -> &Name {
    b[NAME..NAME_END].try_into().unwrap()
}

// The entries of Phi.
fn phi(b: &Block) -> &[Entry; PHI_ENTRIES] {
    b[PHI..].as_chunks().0.try_into().unwrap()
}

// The entries of a table block.
fn table(b: &Block) -> &[Entry; TABLE_ENTRIES as usize] {
    b.as_chunks().0.try_into().unwrap()
}

// Every byte is looked at, many at a time.
#[inline(always)]
fn is_zero(bytes: &[u8]) -> bool {
    let (words, rest) = bytes.as_chunks();
    let words = words
        .iter()
        .fold(0, |all, word| all | u64::from_le_bytes(*word));
    let rest = rest.iter().fold(0, |all, byte| all | byte);
    words == 0 && rest == 0
}

fn is_letter(b: u8) -> bool {
    b.is_ascii_lowercase() | b.is_ascii_digit() | (b == b'.') | (b == b'-')
}

// Each byte is of a name, or zero with a zero after it; all sixteen are looked at together.
fn is_name(name: &Name) -> bool {
    let mut after = [0; NAME_SIZE];
    after[..NAME_SIZE - 1].copy_from_slice(&name[1..]);
    let pairs = name.iter().zip(&after);
    let good = pairs.fold(true, |good, (&b, &next)| {
        good & (is_letter(b) | (b == 0) & (next == 0))
    });
    good & (name[0] != 0)
}

fn check_area(card: &[u8]) -> Result<&[Block], Refusal> {
    match card.as_chunks() {
        (blocks, []) if (LEAST_BLOCKS..=MOST_BLOCKS).contains(&blocks.len()) => Ok(blocks),
        _ => refuse(1),
    }
}

fn check_area_mut(card: &mut [u8]) -> Result<&mut [Block], Refusal> {
    match card.as_chunks_mut() {
        (blocks, []) if (LEAST_BLOCKS..=MOST_BLOCKS).contains(&blocks.len()) => Ok(blocks),
        _ => refuse(1),
    }
}

fn check_name(bytes: &[u8]) -> Result<&Name, Refusal> {
    match bytes.try_into() {
        Ok(name) if is_name(name) => Ok(name),
        _ => refuse(4),
    }
}

// The blocks of descriptors, of which the first `count` are set.
struct Starts {
    count: usize,
    blocks: [MaybeUninit<u32>; MOST_DESCRIPTORS],
}

impl Starts {
    fn push(&mut self, p: u32) {
        self.blocks[self.count].write(p);
        self.count += 1;
    }

    fn all(&self) -> &[u32] {
        // SAFETY: push has set the first `count`.
        unsafe { std::slice::from_raw_parts(self.blocks.as_ptr().cast(), self.count) }
    }
}

// A sound chain.
struct Chain {
    starts: Starts,
    // the same in all descriptors
    layout: u32,
    volume: u32,
    revision: u32,
    cost: u32,
    // of the active descriptor
    alpha: u32,
    beta: u32,
    // which descriptor has the name that was looked for
    found: Option<usize>,
}

// Where the descriptors of the names passed stand among the starts, from 1; 0 where there is none. With at least twice
// as many slots as names the search is short.
const SLOTS: usize = 2 * MOST_DESCRIPTORS;

struct Names([u8; SLOTS]);

impl Names {
    // The slot of the name and which descriptor has it.
    fn find(&self, blocks: &[Block], starts: &[u32], name: &Name) -> (usize, Option<usize>) {
        let bits = u128::from_le_bytes(*name);
        let mixed = (bits as u64 ^ ((bits >> 64) as u64).rotate_left(32))
            .wrapping_mul(0x9e37_79b9_7f4a_7c15);
        let mut slot = (mixed >> (u64::BITS - SLOTS.ilog2())) as usize;
        loop {
            match self.0[slot] as usize {
                0 => return (slot, None),
                k if name_of(&blocks[starts[k - 1] as usize]) == name => {
                    return (slot, Some(k - 1))
                }
                _ => slot = (slot + 1) % SLOTS,
            }
        }
    }
}

// Whether bytes 40 to 63 are the revision, then zeros; all are looked at together.
#[inline(always)]
fn is_reserved(b: &Block, revision: u32) -> bool {
    let words: &[[u8; 8]; 3] = b[REVISION..PHI].as_chunks().0.try_into().unwrap();
    let [first, second, third] = words.map(u64::from_le_bytes);
    (first ^ u64::from(revision)) | second | third == 0
}

// Whether a descriptor at block p of n is sound, as far as it does not rest on others. Within another function the
// compiler takes the bytes of the name one by one.
#[inline(never)]
fn is_sound(b: &Block, layout: u32, revision: u32, cost: u32, p: u32, n: u32) -> bool {
    let (beta, next) = (get(b, BETA), get(b, NEXT));
    is_name(name_of(b))
        && is_reserved(b, revision)
        && (layout == 2 || is_zero(&b[PHI..]))
        && get(b, ALPHA) == p
        && p + cost <= beta
        && beta <= n
        && (next == 0 || next == beta && beta < n)
}

impl Chain {
    fn new() -> Chain {
        Chain {
            starts: Starts {
                count: 0,
                blocks: [const { MaybeUninit::uninit() }; MOST_DESCRIPTORS],
            },
            layout: 0,
            volume: 0,
            revision: 0,
            cost: 0,
            alpha: 0,
            beta: 0,
            found: None,
        }
    }

    // Walks the chain of the card, and looks for a name in it.
    fn walk(&mut self, blocks: &[Block], wanted: Option<&Name>) -> Answer {
        let first = &blocks[0];
        self.layout = get(first, LAYOUT);
        self.volume = get(first, VOLUME);
        self.revision = get(first, REVISION);
        if first[..LAYOUT] != MARK[..]
            || !matches!(self.layout, 1 | 2)
            || !matches!(self.volume, 1..=MOST_VOLUME)
            || !matches!(self.revision, 0 | 1)
        {
            return refuse_at(6, 0);
        }
        self.cost = cost(self.layout, self.volume);
        let mut p = self.pass(blocks, 0)?;
        if p == 0 {
            self.found = (wanted == Some(name_of(first))).then_some(0);
            return Ok(());
        }
        let mut names = Names([0; SLOTS]);
        let (slot, _) = names.find(blocks, &[], name_of(first));
        names.0[slot] = 1;
        while self.starts.count < MOST_DESCRIPTORS {
            let b = &blocks[p as usize];
            let (slot, earlier) = names.find(blocks, self.starts.all(), name_of(b));
            if b[..ALPHA] != first[..ALPHA] || earlier.is_some() {
                return refuse_at(6, p);
            }
            let next = self.pass(blocks, p)?;
            if next == 0 {
                let starts = self.starts.all();
                self.found = wanted.and_then(|name| match name == name_of(b) {
                    true => Some(starts.len() - 1),
                    false => names.find(blocks, starts, name).1,
                });
                return Ok(());
            }
            // fits: the last descriptor has no slot
            names.0[slot] = self.starts.count as u8;
            p = next;
        }
        refuse_at(6, p)
    }

    // Takes a descriptor in, unless it is unsound by itself; its next.
    fn pass(&mut self, blocks: &[Block], p: u32) -> Result<u32, Refusal> {
        let (b, n) = (&blocks[p as usize], blocks.len() as u32);
        if !is_sound(b, self.layout, self.revision, self.cost, p, n) {
            return refuse_at(6, p);
        }
        self.starts.push(p);
        self.alpha = p;
        self.beta = get(b, BETA);
        Ok(get(b, NEXT))
    }

    // The block of the snapshot that was looked for.
    fn snapshot(&self) -> Result<u32, Refusal> {
        match self.found {
            Some(k) if k < self.starts.count - 1 => Ok(self.starts.all()[k]),
            _ => refuse(7),
        }
    }

    // Alpha and beta of the snapshot that was looked for, or of the active descriptor.
    fn target(&self, blocks: &[Block], name: Option<&Name>) -> Result<(u32, u32), Refusal> {
        if name.is_none() {
            return Ok((self.alpha, self.beta));
        }
        let alpha = self.snapshot()?;
        Ok((alpha, get(&blocks[alpha as usize], BETA)))
    }

    // The descriptor whose region contains block p, which is below the last beta.
    fn region(&self, p: u32) -> u32 {
        let starts = self.starts.all();
        starts[starts.partition_point(|&s| s <= p) - 1]
    }

    // Whether an entry of a descriptor with this beta may name block p.
    fn in_place(&self, beta: u32, p: u32) -> bool {
        if p == 0 || p >= beta {
            return p == 0;
        }
        self.region(p) + self.cost <= p
    }

    // The table block of a group, 0 where it is nil.
    #[inline(always)]
    fn table_at(&self, blocks: &[Block], alpha: u32, group: u32) -> u32 {
        match self.layout {
            1 => alpha + 1 + group,
            _ => u32::from_le_bytes(phi(&blocks[alpha as usize])[group as usize]),
        }
    }

    // The same, where it is in place.
    #[inline(always)]
    fn find_table(
        &self,
        blocks: &[Block],
        alpha: u32,
        beta: u32,
        group: u32,
    ) -> Result<u32, Refusal> {
        let m = self.table_at(blocks, alpha, group);
        match self.layout == 1 || self.in_place(beta, m) {
            true => Ok(m),
            false => refuse_at(10, alpha),
        }
    }

    // The table block and the entry of logical block l, each 0 where it is nil.
    fn find(&self, blocks: &[Block], alpha: u32, beta: u32, l: u32) -> Result<(u32, u32), Refusal> {
        if l >= self.volume {
            return refuse(8);
        }
        let m = self.find_table(blocks, alpha, beta, l / TABLE_ENTRIES)?;
        if m == 0 {
            return Ok((0, 0));
        }
        let entries = table(&blocks[m as usize]);
        let p = u32::from_le_bytes(entries[(l % TABLE_ENTRIES) as usize]);
        if !self.in_place(beta, p) {
            return refuse_at(10, m);
        }
        Ok((m, p))
    }
}

// The logical blocks that a span touches.
struct Span {
    blocks: Range<u32>,
    // the byte of the first of them that the span starts with
    from: usize,
}

impl Span {
    // The span of so many bytes from the offset on, where it ends within the volume.
    fn new(chain: &Chain, offset: u64, length: usize) -> Result<Span, Refusal> {
        let size = BLOCK as u64;
        let end = match offset.checked_add(length as u64) {
            Some(end) if end <= size * u64::from(chain.volume) => end,
            _ => return refuse(16),
        };
        Ok(Span {
            blocks: match length {
                0 => 0..0,
                _ => (offset / size) as u32..end.div_ceil(size) as u32,
            },
            from: (offset % size) as usize,
        })
    }

    // Each group that it touches, rising, with the entries of the group's table that it goes by.
    fn groups(&self) -> impl Iterator<Item = (u32, Range<usize>)> {
        let Range { start, end } = self.blocks;
        let groups = start / TABLE_ENTRIES..end.div_ceil(TABLE_ENTRIES);
        groups.map(move |group| {
            let first = TABLE_ENTRIES * group;
            let part = start.max(first) - first..end.min(first + TABLE_ENTRIES) - first;
            (group, part.start as usize..part.end as usize)
        })
    }
}

#[inline(never)]
pub fn ream(card: &mut [u8], layout: u32, volume: u32, revision: u32, name: &[u8]) -> Answer {
    let blocks = check_area_mut(card)?;
    if !matches!(layout, 1 | 2) {
        return refuse(2);
    }
    if !matches!(volume, 1..=MOST_VOLUME) {
        return refuse(3);
    }
    if !matches!(revision, 0 | 1) {
        return refuse(17);
    }
    let name = check_name(name)?;
    let c = cost(layout, volume);
    let Some(opening) = blocks.get_mut(..c as usize) else {
        return refuse(5);
    };
    opening.as_flattened_mut().fill(0);
    let b = &mut opening[0];
    b[..LAYOUT].copy_from_slice(MARK);
    put(b, LAYOUT, layout);
    put(b, VOLUME, volume);
    put(b, BETA, c);
    b[NAME..NAME_END].copy_from_slice(name);
    put(b, REVISION, revision);
    Ok(())
}

#[inline(never)]
pub fn read(card: &[u8], snapshot: Option<&[u8]>, l: u32, out: &mut [u8]) -> Answer {
    let blocks = check_area(card)?;
    let name = snapshot.map(check_name).transpose()?;
    let Ok(out) = <&mut Block>::try_from(out) else {
        return refuse(9);
    };
    let mut chain = Chain::new();
    chain.walk(blocks, name)?;
    let (alpha, beta) = chain.target(blocks, name)?;
    match chain.find(blocks, alpha, beta, l)? {
        (_, 0) => out.fill(0),
        (_, p) => *out = blocks[p as usize],
    }
    Ok(())
}

// All entries are found before the first byte is filled.
#[inline(never)]
pub fn read_span(card: &[u8], snapshot: Option<&[u8]>, offset: u64, out: &mut [u8]) -> Answer {
    let blocks = check_area(card)?;
    let name = snapshot.map(check_name).transpose()?;
    let mut chain = Chain::new();
    chain.walk(blocks, name)?;
    let (alpha, beta) = chain.target(blocks, name)?;
    let span = Span::new(&chain, offset, out.len())?;
    for (group, part) in span.groups() {
        let m = chain.find_table(blocks, alpha, beta, group)?;
        if m != 0 {
            let entries = &table(&blocks[m as usize])[part];
            let is_placed = |e: &Entry| chain.in_place(beta, u32::from_le_bytes(*e));
            if !entries.iter().all(is_placed) {
                return refuse_at(10, m);
            }
        }
    }
    let (mut from, mut rest) = (span.from, out);
    for (group, part) in span.groups() {
        let m = chain.table_at(blocks, alpha, group);
        for j in part {
            let (piece, later) = rest.split_at_mut(rest.len().min(BLOCK - from));
            let p = match m {
                0 => 0,
                _ => get(&blocks[m as usize], NUMBER * j),
            };
            match p {
                0 => piece.fill(0),
                _ => piece.copy_from_slice(&blocks[p as usize][from..from + piece.len()]),
            }
            (from, rest) = (0, later);
        }
    }
    Ok(())
}

// The name is a part of the answer, and stored by every call: zeros where there is none.
#[inline(never)]
pub fn visit(card: &[u8], snapshot: Option<&[u8]>, l: u32, visit: &mut Name) -> Answer {
    *visit = [0; NAME_SIZE];
    let blocks = check_area(card)?;
    let name = snapshot.map(check_name).transpose()?;
    let mut chain = Chain::new();
    chain.walk(blocks, name)?;
    let (alpha, beta) = chain.target(blocks, name)?;
    let (_, p) = chain.find(blocks, alpha, beta, l)?;
    if p != 0 {
        *visit = *name_of(&blocks[chain.region(p) as usize]);
    }
    Ok(())
}

#[inline(never)]
pub fn write(card: &mut [u8], l: u32, bytes: &[u8]) -> Answer {
    let blocks = check_area_mut(card)?;
    let Ok(bytes) = <&Block>::try_from(bytes) else {
        return refuse(9);
    };
    let mut chain = Chain::new();
    chain.walk(blocks, None)?;
    let (alpha, beta) = (chain.alpha, chain.beta);
    let (old, p) = chain.find(blocks, alpha, beta, l)?;
    if p != 0 && p >= alpha {
        blocks[p as usize] = *bytes;
        return Ok(());
    }
    let is_new = old == 0 || old < alpha;
    let end = beta + 1 + u32::from(is_new);
    if end as usize > blocks.len() {
        return refuse(11);
    }
    let data = end - 1;
    blocks[data as usize] = *bytes;
    let mut m = old as usize;
    if is_new {
        m = beta as usize;
        match old {
            0 => blocks[m].fill(0),
            _ => blocks.copy_within(old as usize..old as usize + 1, m),
        }
        let at = PHI + NUMBER * (l / TABLE_ENTRIES) as usize;
        put(&mut blocks[alpha as usize], at, beta);
    }
    put(&mut blocks[m], NUMBER * (l % TABLE_ENTRIES) as usize, data);
    put(&mut blocks[alpha as usize], BETA, end);
    Ok(())
}

// On a card that passes the check every entry is in place, and no block is named twice.
#[inline(never)]
pub fn write_span(card: &mut [u8], offset: u64, bytes: &[u8]) -> Answer {
    let blocks = check_area_mut(card)?;
    let mut chain = Chain::new();
    chain.walk(blocks, None)?;
    let span = Span::new(&chain, offset, bytes.len())?;
    chain.check(blocks)?;
    let (alpha, beta) = (chain.alpha, chain.beta as usize);
    // whether a new block takes the place of this one
    let is_new = |p: u32| p == 0 || p < alpha;
    let mut need = 0;
    for (group, part) in span.groups() {
        let m = chain.table_at(blocks, alpha, group);
        if is_new(m) {
            need += 1 + part.len();
        } else {
            let entries = &table(&blocks[m as usize])[part];
            let new = entries.iter().filter(|e| is_new(u32::from_le_bytes(**e)));
            need += new.count();
        }
    }
    if beta + need > blocks.len() {
        return refuse(11);
    }
    let mut end = beta;
    // this block, or the new one, with the same bytes unless all of them are stored next
    let mut own = |blocks: &mut [Block], old: u32, is_whole: bool| {
        if !is_new(old) {
            return old as usize;
        }
        let p = end;
        end += 1;
        match old as usize {
            _ if is_whole => {}
            0 => blocks[p].fill(0),
            old => blocks.copy_within(old..old + 1, p),
        }
        p
    };
    let (mut from, mut rest) = (span.from, bytes);
    for (group, part) in span.groups() {
        let old = chain.table_at(blocks, alpha, group);
        let m = own(blocks, old, false);
        if m != old as usize {
            let at = PHI + NUMBER * group as usize;
            put(&mut blocks[alpha as usize], at, m as u32);
        }
        for j in part {
            let (piece, later) = rest.split_at(rest.len().min(BLOCK - from));
            let old = get(&blocks[m], NUMBER * j);
            let p = own(blocks, old, piece.len() == BLOCK);
            if p != old as usize {
                put(&mut blocks[m], NUMBER * j, p as u32);
            }
            blocks[p][from..from + piece.len()].copy_from_slice(piece);
            (from, rest) = (0, later);
        }
    }
    put(&mut blocks[alpha as usize], BETA, end as u32);
    Ok(())
}

// Opens a region at block `to`: a copy of the descriptor at `from` and, in layout 1, of its tables.
#[inline(always)]
fn open(blocks: &mut [Block], from: u32, to: u32, c: u32) {
    blocks.copy_within(from as usize..(from + c) as usize, to as usize);
    let opened = &mut blocks[to as usize];
    put(opened, ALPHA, to);
    put(opened, BETA, to + c);
}

#[inline(never)]
pub fn snap(card: &mut [u8], name: &[u8]) -> Answer {
    let blocks = check_area_mut(card)?;
    let name = check_name(name)?;
    let mut chain = Chain::new();
    chain.walk(blocks, Some(name))?;
    if chain.found.is_some() {
        return refuse(12);
    }
    if chain.starts.count == MOST_DESCRIPTORS {
        return refuse(13);
    }
    let (from, to, c) = (chain.alpha, chain.beta, chain.cost);
    if (to + c) as usize > blocks.len() {
        return refuse(11);
    }
    open(blocks, from, to, c);
    let closed = &mut blocks[from as usize];
    put(closed, NEXT, to);
    closed[NAME..NAME_END].copy_from_slice(name);
    Ok(())
}

#[inline(never)]
pub fn revert(card: &mut [u8], name: &[u8]) -> Answer {
    let blocks = check_area_mut(card)?;
    let name = check_name(name)?;
    let mut chain = Chain::new();
    chain.walk(blocks, Some(name))?;
    let mut p = chain.snapshot()?;
    let active = *name_of(&blocks[chain.alpha as usize]);
    if chain.revision == 1 {
        // fits: the region after the snapshot's starts there, and has as many blocks at least
        let to = get(&blocks[p as usize], BETA);
        open(blocks, p, to, chain.cost);
        p = to;
    }
    let b = &mut blocks[p as usize];
    put(b, NEXT, 0);
    b[NAME..NAME_END].copy_from_slice(&active);
    Ok(())
}

#[inline(never)]
pub fn list(card: &[u8], records: &mut [u8]) -> Answer {
    let blocks = check_area(card)?;
    let mut chain = Chain::new();
    chain.walk(blocks, None)?;
    let starts = chain.starts.all();
    let (records, _) = records.as_chunks_mut::<RECORD_SIZE>();
    if records.len() < starts.len() {
        return refuse(14);
    }
    for (record, &p) in records.iter_mut().zip(starts) {
        let b = &blocks[p as usize];
        record[..NAME_SIZE].copy_from_slice(name_of(b));
        record[NAME_SIZE..].copy_from_slice(&b[ALPHA..NAME]);
    }
    Ok(())
}

// A mark for each block but block 0: the last turn, one for each descriptor, in which an entry named it; or the highest,
// for a block that no entry may name.
struct Marks<'a> {
    marks: &'a mut [u8],
    turn: u8,
}

const OPENING: u8 = u8::MAX;

impl Marks<'_> {
    fn open(&mut self, chain: &Chain) {
        let c = chain.cost as usize;
        self.marks[..c - 1].fill(OPENING);
        for &p in &chain.starts.all()[1..] {
            self.marks[p as usize - 1..][..c].fill(OPENING);
        }
    }

    fn next_turn(&mut self, chain: &Chain) {
        self.turn += 1;
        if self.turn == OPENING {
            self.marks.fill(0);
            self.open(chain);
            self.turn = 1;
        }
    }

    // Which of the entries is at fault first, where they may name blocks below the limit.
    fn fault(&mut self, entries: &[Entry], limit: u32) -> Option<usize> {
        let marks = &mut self.marks[..limit as usize - 1];
        let turn = self.turn;
        let mut is_fault = |e: &Entry| {
            let v = u32::from_le_bytes(*e);
            // nil is beyond all marks
            match marks.get_mut(v.wrapping_sub(1) as usize) {
                Some(mark) if *mark < turn => {
                    *mark = turn;
                    false
                }
                Some(_) => true,
                None => v != 0,
            }
        };
        let (fours, rest) = entries.as_chunks::<4>();
        for (i, four) in fours.iter().enumerate() {
            if let Some(j) = four.iter().position(&mut is_fault) {
                return Some(4 * i + j);
            }
        }
        let j = rest.iter().position(is_fault)?;
        Some(4 * fours.len() + j)
    }
}

#[inline(always)]
fn check_one(blocks: &[Block], chain: &Chain, marks: &mut Marks, alpha: u32) -> Answer {
    let b = &blocks[alpha as usize];
    let beta = get(b, BETA);
    let (volume, n) = (chain.volume as usize, tables(chain.volume) as usize);
    if chain.layout == 1 {
        let first = alpha + 1;
        let tables = &blocks[first as usize..][..n];
        let (entries, rest) = tables.as_flattened().as_chunks().0.split_at(volume);
        if let Some(i) = marks.fault(entries, beta) {
            return refuse_at(10, first + i as u32 / TABLE_ENTRIES);
        }
        return match is_zero(rest.as_flattened()) {
            true => Ok(()),
            false => refuse_at(10, first + n as u32 - 1),
        };
    }
    let (entries, rest) = phi(b).split_at(n);
    for (i, e) in entries.iter().enumerate() {
        let m = u32::from_le_bytes(*e);
        if m == 0 {
            continue;
        }
        if marks.fault(&[*e], beta).is_some() {
            return refuse_at(10, alpha);
        }
        let counted = (volume - i * TABLE_ENTRIES as usize).min(TABLE_ENTRIES as usize);
        let (entries, rest) = table(&blocks[m as usize]).split_at(counted);
        let limit = if m < alpha { alpha } else { beta };
        if marks.fault(entries, limit).is_some() || !is_zero(rest.as_flattened()) {
            return refuse_at(10, m);
        }
    }
    match is_zero(rest.as_flattened()) {
        true => Ok(()),
        false => refuse_at(10, alpha),
    }
}

impl Chain {
    // The check of the entries.
    #[inline(always)]
    fn check(&self, blocks: &[Block]) -> Answer {
        let mut room = [const { MaybeUninit::uninit() }; MOST_BLOCKS - 1];
        let room = &mut room[..blocks.len() - 1];
        room.fill(MaybeUninit::new(0));
        let mut marks = Marks {
            // SAFETY: this part has just been set.
            marks: unsafe { room.assume_init_mut() },
            turn: 0,
        };
        marks.open(self);
        for &p in self.starts.all() {
            marks.next_turn(self);
            check_one(blocks, self, &mut marks, p)?;
        }
        Ok(())
    }
}

#[inline(never)]
pub fn check(card: &[u8]) -> Answer {
    let blocks = check_area(card)?;
    let mut chain = Chain::new();
    chain.walk(blocks, None)?;
    chain.check(blocks)
}
