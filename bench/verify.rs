// The library and the baseline beside one another on random cards, whole and damaged: same answers, same bytes.
use crate::call::{make, name, Call, Lent, Side};
use crate::declared::RECORD_SIZE;
use crate::numbers::*;
use crate::row::{chain, number};
use std::collections::BTreeMap;

struct Random(u64);

impl Random {
    fn next(&mut self) -> u64 {
        self.0 ^= self.0 << 13;
        self.0 ^= self.0 >> 7;
        self.0 ^= self.0 << 17;
        self.0.wrapping_mul(0x2545_f491_4f6c_dd1d) >> 11
    }

    fn below(&mut self, n: usize) -> usize {
        (self.next() % n as u64) as usize
    }

    fn one_in(&mut self, n: usize) -> bool {
        self.below(n) == 0
    }
}

struct Pair {
    a: Vec<u8>,
    b: Vec<u8>,
    given: Given,
}

// What came of the calls: how often each answer was given, by its number; how many reverts were accepted, by layout and
// revision; how many visits were, by layout and by which region was named, if any; how often each answer was given to a
// span.
#[derive(Default)]
struct Given {
    answers: BTreeMap<u32, u64>,
    reverts: BTreeMap<(u32, u32), u64>,
    visits: BTreeMap<(u32, Option<Region>), u64>,
    spans: BTreeMap<(Span, u32), u64>,
}

// A region as it stands to the active one.
#[derive(Clone, Copy, PartialEq, Eq, PartialOrd, Ord, Debug)]
enum Region {
    Active,
    Older,
}

// What a span is for.
#[derive(Clone, Copy, PartialEq, Eq, PartialOrd, Ord, Debug)]
enum Span {
    Read,
    Write,
}

// The numbers that these calls can give.
const NUMBERS: [u32; 17] = [0, 1, 2, 3, 4, 5, 6, 7, 8, 9, 10, 11, 12, 13, 14, 16, 17];

// Those that a span can give.
const SPANS: [(Span, &[u32]); 2] = [
    (Span::Read, &[0, 1, 4, 6, 7, 10, 16]),
    (Span::Write, &[0, 1, 6, 10, 11, 16]),
];

impl Pair {
    fn new(area: Vec<u8>, given: Given) -> Pair {
        Pair {
            a: area.clone(),
            b: area,
            given,
        }
    }

    fn make(&mut self, call: &Call, lent: &Lent) -> bool {
        let before = call.is_span().then(|| self.a.clone());
        let (mut la, mut lb) = (lent.clone(), lent.clone());
        let x = make(Side::Library, call, &mut self.a, &mut la);
        let y = make(Side::Baseline, call, &mut self.b, &mut lb);
        assert_eq!(x, y, "answers differ: {call:?}");
        assert!(self.a == self.b, "cards differ after {call:?}");
        assert!(la == lb, "lent bytes differ after {call:?}");
        let number = x.err().map_or(0, |r| r.number);
        *self.given.answers.entry(number).or_default() += 1;
        if matches!(call, Call::Revert { .. }) && number == 0 {
            let kind = (get(&self.a, 0, LAYOUT), get(&self.a, 0, REVISION));
            *self.given.reverts.entry(kind).or_default() += 1;
        }
        if matches!(call, Call::Visit { .. }) && number == 0 {
            let last = BLOCK * chain(&self.a).pop().unwrap();
            let region = match la.visit {
                none if none == [0; NAME_SIZE] => None,
                name if name == self.a[last + NAME..last + NAME_END] => Some(Region::Active),
                _ => Some(Region::Older),
            };
            let kind = (get(&self.a, 0, LAYOUT), region);
            *self.given.visits.entry(kind).or_default() += 1;
        }
        if let Some(mut card) = before {
            let span = match call {
                Call::WriteSpan { .. } => Span::Write,
                _ => Span::Read,
            };
            *self.given.spans.entry((span, number)).or_default() += 1;
            // accepted, it is its whole-block calls one after the other; refused, it is done in no part
            let mut lent = lent.clone();
            if number == 0 {
                let whole = make(Side::Whole, call, &mut card, &mut lent);
                assert_eq!(whole, Ok(()), "whole-block calls of {call:?}");
            }
            assert!(card == self.a, "cards differ by whole blocks: {call:?}");
            assert!(lent == la, "lent bytes differ by whole blocks: {call:?}");
        }
        number == 0
    }
}

fn some_name(r: &mut Random, most: usize) -> Name {
    let mut n = name(&format!("v{}", r.below(most)));
    if r.one_in(20) {
        n[r.below(NAME_SIZE)] = r.next() as u8;
    }
    if r.one_in(8) {
        n = *b"abcdefghijklmno-";
        n[NAME_SIZE - 1] = b'a' + r.below(26) as u8;
    }
    n
}

fn some_revision(r: &mut Random) -> u32 {
    match r.one_in(40) {
        true => NO_REVISIONS[r.below(NO_REVISIONS.len())],
        false => r.below(2) as u32,
    }
}

// A span at or near the block, across the end of its group, at the volume's end or past it; and what is lent to it.
fn some_span(r: &mut Random, volume: u32, block: u32) -> (u64, Lent) {
    let length = match r.below(16) {
        0 => 0,
        1 => 1 + r.below(3),
        2..=3 => BLOCK * (1 + r.below(3)) - r.below(2),
        4..=6 => 700,
        7 => r.below(70_000),
        _ => r.below(3000),
    };
    let size = BLOCK as u64;
    let end = size * u64::from(volume);
    let at = size * u64::from(block);
    let group = size * u64::from(TABLE_ENTRIES);
    let offset = match r.below(24) {
        0 => end.saturating_sub(length as u64),
        1 => (end + 1).saturating_sub(length as u64),
        2 => u64::MAX - r.below(1000) as u64,
        3 => at + (1 << 32) * (1 + r.below(3) as u64),
        4..=6 => at - at % group + group - 1 - r.below(1 + length.min(group as usize - 1)) as u64,
        7..=10 => at,
        11..=13 => at.saturating_sub(r.below(2 * BLOCK) as u64),
        _ => at + r.below(BLOCK) as u64,
    };
    let mut lent = Lent::of(length);
    lent.bytes.iter_mut().for_each(|b| *b = r.next() as u8);
    (offset, lent)
}

fn some_call(r: &mut Random, volume: u32, names: usize) -> (Call, Lent) {
    let block = match r.below(12) {
        0 => volume + r.below(3) as u32,
        1 => r.next() as u32,
        2 => volume - 1,
        3 => r.below(4) as u32,
        _ => r.below(volume as usize) as u32,
    };
    if r.one_in(4) {
        let (offset, lent) = some_span(r, volume, block);
        let call = match r.below(4) {
            0..=1 => Call::WriteSpan { offset },
            2 => Call::ReadSpan {
                snapshot: None,
                offset,
            },
            _ => Call::ReadSpan {
                snapshot: Some(some_name(r, names)),
                offset,
            },
        };
        return (call, lent);
    }
    let call = match r.below(24) {
        0..=6 => Call::Write { block },
        7..=8 => Call::Read {
            snapshot: None,
            block,
        },
        9..=11 => Call::Read {
            snapshot: Some(some_name(r, names)),
            block,
        },
        12..=14 => Call::Snap {
            name: some_name(r, names),
        },
        15 => Call::Revert {
            name: some_name(r, names),
        },
        16..=17 => Call::List,
        18..=19 => Call::Check,
        20..=21 => Call::Visit {
            snapshot: None,
            block,
        },
        _ => Call::Visit {
            snapshot: Some(some_name(r, names)),
            block,
        },
    };
    (call, some_lent(r))
}

fn some_lent(r: &mut Random) -> Lent {
    let mut lent = Lent::new();
    lent.bytes.fill(r.next() as u8);
    if r.one_in(30) {
        lent.out.truncate(r.below(BLOCK));
        lent.bytes.push(0);
    }
    if r.one_in(8) {
        lent.records.truncate(r.below(RECORD_SIZE * 9));
    }
    lent
}

fn get(card: &[u8], p: usize, at: usize) -> u32 {
    number(card, BLOCK * p + at)
}

fn put(card: &mut [u8], p: usize, at: usize, v: u32) {
    card[BLOCK * p + at..][..NUMBER].copy_from_slice(&v.to_le_bytes());
}

// One small change in a descriptor or an entry of a sound card; a logical block that it may touch.
fn damage(r: &mut Random, card: &mut [u8]) -> u32 {
    let n = card.len() / BLOCK;
    let chain = chain(card);
    let k = if r.one_in(2) {
        chain.len() - 1
    } else {
        r.below(chain.len())
    };
    let p = chain[k];
    let other = chain[r.below(chain.len())];
    let (layout, volume) = (get(card, p, LAYOUT), get(card, p, VOLUME));
    let (alpha, beta) = (get(card, p, ALPHA), get(card, p, BETA));
    let entries = TABLE_ENTRIES as usize;
    let group = r.below(tables(volume) as usize);
    let last = if r.one_in(4) {
        entries
    } else {
        entries.min(volume as usize)
    };
    let j = r.below(last);
    let l = (entries * group + j) as u32;
    let c = cost(layout, volume) as usize;
    if r.one_in(20) && k == chain.len() - 1 && beta as usize + c <= n {
        // a descriptor more, which is sound unless it is one too many
        let (from, to) = (BLOCK * p, BLOCK * beta as usize);
        card.copy_within(from..from + BLOCK * c, to);
        put(card, p, NEXT, beta);
        card[from + NAME..from + NAME_END].copy_from_slice(&name("one-more"));
        put(card, beta as usize, ALPHA, beta);
        put(card, beta as usize, BETA, beta + c as u32);
        return l;
    }
    if r.one_in(3) {
        // the descriptor
        match r.below(11) {
            0 => card[BLOCK * p + r.below(PHI)] ^= 1 << r.below(8),
            1 => card[BLOCK * p + NAME_END + r.below(BLOCK - NAME_END)] ^= 1 << r.below(8),
            2 => {
                let from = BLOCK * other;
                card.copy_within(from + NAME..from + NAME_END, BLOCK * p + NAME)
            }
            3 => put(
                card,
                p,
                BETA,
                beta.wrapping_add(r.below(3) as u32).wrapping_sub(1),
            ),
            4 => put(card, p, BETA, [n, n + 1, p, p + 1][r.below(4)] as u32),
            5 => put(
                card,
                p,
                NEXT,
                [beta as usize, p, n, other][r.below(4)] as u32,
            ),
            6 => put(card, p, ALPHA, other as u32),
            7 => put(card, p, LAYOUT, 3 - layout),
            8 => put(card, p, REVISION, some_revision(r)),
            // the other revision, on the whole card
            9 => {
                let revision = 1 - get(card, p, REVISION);
                chain.iter().for_each(|&p| put(card, p, REVISION, revision))
            }
            _ => put(card, p, VOLUME, volume + 1),
        }
        if r.one_in(4) {
            // a region that ends with the card, and a next there
            put(card, p, BETA, n as u32);
            put(card, p, NEXT, n as u32);
        }
        return l;
    }
    let table = match layout {
        1 => p + 1 + group,
        _ => get(card, p, PHI + NUMBER * group) as usize,
    };
    let (holder, at) = if table == 0 || layout == 2 && r.one_in(3) {
        let i = if r.one_in(4) {
            r.below(PHI_ENTRIES)
        } else {
            group
        };
        (p, PHI + NUMBER * i)
    } else {
        (table.min(n - 1), NUMBER * j)
    };
    let v = match r.below(9) {
        0 => other as u32,
        1 => other as u32 + 1,
        2 => alpha + r.below(3) as u32,
        3 => (beta + r.below(3) as u32).saturating_sub(1),
        4 => get(card, holder, NUMBER * r.below(entries)),
        5 => r.below(n) as u32,
        6 => r.next() as u32,
        7 => table as u32,
        _ => 0,
    };
    put(card, holder, at, v);
    l
}

// A card on which only one rule of check is broken: an old table, named by no other descriptor, with a new block in it.
fn old_table(given: Given) -> Given {
    let mut pair = Pair::new(vec![0; BLOCK * 16], given);
    let lent = Lent::new();
    let fs = name("fs");
    let ream = Call::Ream {
        layout: 2,
        volume: 200,
        revision: 0,
        name: fs,
    };
    let write = Call::Write { block: 0 };
    let snap = Call::Snap { name: name("v0") };
    for call in [ream, write, snap, write, Call::Check] {
        assert!(pair.make(&call, &lent));
    }
    // block 2 has the snapshot's data; the active region is from 3 to 6
    pair.a[2 * BLOCK..3 * BLOCK].fill(0);
    put(&mut pair.a, 2, 0, 6);
    put(&mut pair.a, 3, BETA, 7);
    put(&mut pair.a, 3, PHI + NUMBER, 2);
    pair.b.copy_from_slice(&pair.a);
    assert!(!pair.make(&Call::Check, &lent));
    pair.given
}

// A chain up to and past its limit where the card has the blocks for it, with data that many descriptors name.
fn long_chain(r: &mut Random, pair: &mut Pair, blocks: usize, volume: u32) {
    let lent = Lent::new();
    let (layout, most) = match blocks > 2 * MOST_DESCRIPTORS + 20 {
        true => (1, TABLE_ENTRIES),
        false => (2, MOST_VOLUME),
    };
    let volume = volume.clamp(1, most);
    let fs = name("fs");
    let ream = Call::Ream {
        layout,
        volume,
        revision: r.below(2) as u32,
        name: fs,
    };
    pair.make(&ream, &lent);
    for k in 0..=MOST_SNAPSHOTS {
        if k < 3 || r.one_in(20) {
            let block = r.below(volume as usize) as u32;
            pair.make(&Call::Write { block }, &lent);
        }
        let name = name(&format!("v{k}"));
        pair.make(&Call::Snap { name }, &lent);
    }
    pair.make(&Call::Check, &lent);
}

// Compares the two sides on `cards` random cards; the number of calls compared.
pub fn verify(cards: u64) -> u64 {
    let mut r = Random(0x1234_5678_9abc_def1);
    let mut given = old_table(Given::default());
    for i in 0..cards {
        let blocks = match i % 8 {
            0 => r.below(4),
            1 => 300 + r.below(300),
            _ => 2 + r.below(60),
        };
        let mut area = vec![0u8; BLOCK * blocks];
        if r.one_in(2) {
            area.iter_mut().for_each(|b| *b = r.next() as u8);
        }
        if r.one_in(60) {
            area.push(0);
        }
        let volume = match r.below(6) {
            0 => 1,
            1 => 127 + r.below(4),
            2 => 1 + r.below(1000),
            3 => MOST_VOLUME as usize - r.below(3),
            4 if r.one_in(3) => MOST_VOLUME as usize + 1,
            _ => 1 + r.below(300),
        } as u32;
        let layout = if r.one_in(40) {
            r.below(4)
        } else {
            1 + r.below(2)
        } as u32;
        let names = if i % 8 == 1 { 400 } else { 12 };
        let mut pair = Pair::new(area, given);
        pair.make(
            &Call::Ream {
                layout,
                volume,
                revision: some_revision(&mut r),
                name: some_name(&mut r, 12),
            },
            &Lent::new(),
        );
        let is_long = i % 16 == 1;
        if is_long {
            long_chain(&mut r, &mut pair, blocks, volume);
        }
        for _ in 0..80 {
            let (call, lent) = some_call(&mut r, volume, names);
            pair.make(&call, &lent);
            if (i % 2 == 0 || is_long)
                && r.one_in(3)
                && make(Side::Library, &Call::Check, &mut pair.a, &mut lent.clone()).is_ok()
            {
                let whole = pair.a.clone();
                let lent = some_lent(&mut r);
                let block = damage(&mut r, &mut pair.a);
                pair.b.copy_from_slice(&pair.a);
                pair.make(&Call::Check, &lent);
                pair.make(&Call::List, &lent);
                let snapshots = (0..4).map(|k| Some(name(&format!("v{k}"))));
                for snapshot in [None].into_iter().chain(snapshots) {
                    pair.make(&Call::Read { snapshot, block }, &lent);
                    pair.make(&Call::Visit { snapshot, block }, &lent);
                    let (offset, lent) = some_span(&mut r, volume, block);
                    pair.make(&Call::ReadSpan { snapshot, offset }, &lent);
                }
                let (offset, bytes) = some_span(&mut r, volume, block);
                pair.make(&Call::WriteSpan { offset }, &bytes);
                pair.make(&Call::Write { block }, &lent);
                let name = name(&format!("v{}", r.below(4)));
                pair.make(&Call::Revert { name }, &lent);
                let (call, lent) = some_call(&mut r, volume, names);
                pair.make(&call, &lent);
                pair.make(&Call::Check, &lent);
                pair.a.copy_from_slice(&whole);
                pair.b.copy_from_slice(&whole);
            }
        }
        given = pair.given;
    }
    let Given {
        answers,
        reverts,
        visits,
        spans,
    } = given;
    assert!(
        answers.keys().eq(&NUMBERS),
        "an answer was never given, or a strange one was: {answers:?}"
    );
    assert!(
        reverts.keys().eq(&[(1, 0), (1, 1), (2, 0), (2, 1)]),
        "a kind of revert was never made: {reverts:?}"
    );
    let regions = [None, Some(Region::Active), Some(Region::Older)];
    let kinds = [1, 2]
        .into_iter()
        .flat_map(|layout| regions.map(|region| (layout, region)));
    assert!(
        visits.keys().copied().eq(kinds),
        "a kind of visit was never made: {visits:?}"
    );
    let kinds = SPANS
        .iter()
        .flat_map(|&(span, numbers)| numbers.iter().map(move |&number| (span, number)));
    assert!(
        spans.keys().copied().eq(kinds),
        "a span was never given an answer, or a strange one was: {spans:?}"
    );
    answers.values().sum()
}
