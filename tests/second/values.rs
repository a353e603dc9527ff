//! Document 01's bench values, the areas that are refused, the order of refusals, document 02's
//! revisions, the visits that blocks date from and spans, each with the answer that the papers
//! give.

use crate::call::carry_out;
use crate::numbers::{BETA, BLOCK};
use crate::store::{self, Answer, Logical, Record, Target, ACCEPTED, NOTHING};
use crate::{cases, damage, spans, visits, Count};

/// Counts a case whose two sides must be equal.
pub fn same<T: PartialEq + std::fmt::Debug>(count: &mut Count, name: &str, got: T, expected: T) {
    let result = if got == expected {
        Ok(())
    } else {
        Err(format!("{got:?} and not {expected:?}"))
    };
    count.case(name, result);
}

pub fn answer(number: u64, place: u64) -> Answer {
    Answer { number, place }
}

fn area(blocks: usize) -> Vec<u8> {
    vec![0; blocks * BLOCK]
}

/// A card as a ream leaves it.
pub fn formatted(layout: u64, volume: u64, revision: u64, blocks: usize) -> Vec<u8> {
    let mut card = area(blocks);
    store::ream(&mut card, layout, volume, revision, b"fs");
    card
}

/// Such a card of revision 0.
pub fn reamed(layout: u64, volume: u64, blocks: usize) -> Vec<u8> {
    formatted(layout, volume, 0, blocks)
}

/// A write of fill 1.
pub fn write(card: &mut [u8], logical: u64) -> Answer {
    store::write(card, Logical(logical), &[1; BLOCK])
}

pub fn read(card: &[u8], logical: u64) -> (Answer, Vec<u8>) {
    let mut lent = vec![5; BLOCK];
    let answer = store::read(card, &Target::Active, Logical(logical), &mut lent);
    (answer, lent)
}

pub fn list(card: &[u8]) -> Answer {
    store::list(card, &mut [NOTHING; 300]).0
}

/// Beta of the last record of a listing, 0 where there is none.
pub fn beta(card: &[u8]) -> u64 {
    let mut records = [NOTHING; 300];
    let (_, filled) = store::list(card, &mut records);
    records[..filled].last().map_or(0, |record| record.beta)
}

/// Puts a stored number on a card.
pub fn put(card: &mut [u8], block: u64, byte: usize, value: u32) {
    store::store_number(card, block as usize * BLOCK + byte, u64::from(value));
}

pub fn run() -> Count {
    let mut count = Count::default();
    bench(&mut count);
    areas(&mut count);
    ladders(&mut count);
    by_hand(&mut count);
    damage::run(&mut count);
    count
}

/// The bench values; marked ones are stars.
fn bench(count: &mut Count) {
    let mut card = area(3);
    same(
        count,
        "* layout 1, L 129, N 3",
        store::ream(&mut card, 1, 129, 0, b"fs"),
        ACCEPTED,
    );
    same(count, "* its beta", beta(&card), 3);
    same(
        count,
        "* L 129, N 2",
        store::ream(&mut area(2), 1, 129, 0, b"fs"),
        answer(5, 0),
    );
    same(count, "* write", write(&mut card, 0), answer(11, 0));
    same(
        count,
        "* read 128",
        read(&card, 128),
        (ACCEPTED, vec![0; BLOCK]),
    );
    same(count, "* read 129", read(&card, 129).0, answer(8, 0));

    let mut card = reamed(2, 14_336, 2);
    same(
        count,
        "* layout 2, L 14,336, N 2: write",
        write(&mut card, 0),
        answer(11, 0),
    );
    same(count, "* snap", store::snap(&mut card, b"mon"), ACCEPTED);
    same(count, "* its beta", beta(&card), 2);
    same(
        count,
        "* second snap",
        store::snap(&mut card, b"tue"),
        answer(11, 0),
    );

    same(
        count,
        "* L 14,337",
        store::ream(&mut area(2), 2, 14_337, 0, b"fs"),
        answer(3, 0),
    );
    let (long, longest) = (&b"abcdefghijklmnopq"[..], &b"abcdefghijklmnop"[..]);
    same(
        count,
        "* name of 17",
        store::ream(&mut area(2), 2, 9, 0, long),
        answer(4, 0),
    );
    same(
        count,
        "* name of 16",
        store::ream(&mut area(2), 2, 9, 0, longest),
        ACCEPTED,
    );
    let mut card = reamed(2, 9, 4);
    same(
        count,
        "* revert to the active name",
        store::revert(&mut card, b"fs"),
        answer(7, 0),
    );
    same(
        count,
        "* snap with the active name",
        store::snap(&mut card, b"fs"),
        answer(12, 0),
    );
    same(
        count,
        "* two blocks of zeros, list",
        list(&area(2)),
        answer(6, 0),
    );

    for blocks in [256, 257, 300] {
        let mut card = reamed(2, 200, blocks);
        for k in 0..255 {
            let name = format!("snap {k} of {blocks}");
            same(
                count,
                &name,
                store::snap(&mut card, format!("s{k}").as_bytes()),
                ACCEPTED,
            );
        }
        same(
            count,
            "snap 256",
            store::snap(&mut card, b"more"),
            answer(13, 0),
        );
        same(
            count,
            "snap 256, name in use",
            store::snap(&mut card, b"s7"),
            answer(12, 0),
        );
        same(count, "list of 256", list(&card), ACCEPTED);
        same(count, "check of 256", store::check(&card), ACCEPTED);
        let short = store::list(&card, &mut [NOTHING; 255]).0;
        same(count, "list of 255 records", short, answer(14, 0));
    }
}

/// 1 on areas of any length, for all calls.
fn areas(count: &mut Count) {
    let bad = [
        0,
        1,
        511,
        512,
        513,
        1_023,
        1_025,
        65_537 * BLOCK,
        65_536 * BLOCK + 1,
    ];
    for length in bad {
        let mut card = vec![0; length];
        let name = format!("area of {length} bytes");
        let one = answer(1, 0);
        same(count, &name, store::ream(&mut card, 3, 0, 2, b""), one);
        same(count, &name, store::snap(&mut card, b""), one);
        same(count, &name, store::revert(&mut card, b""), one);
        same(count, &name, store::write(&mut card, Logical(0), &[]), one);
        let nowhere = Target::Snapshot(Vec::new());
        same(
            count,
            &name,
            store::read(&card, &nowhere, Logical(0), &mut []),
            one,
        );
        same(count, &name, store::list(&card, &mut []).0, one);
        same(count, &name, store::check(&card), one);
        let visit = store::visit(&card, &nowhere, Logical(0));
        same(count, &name, visit, (one, None));
        let span = store::read_span(&card, &nowhere, u64::MAX, &mut [0; 2]);
        same(count, &name, span, one);
        same(
            count,
            &name,
            store::write_span(&mut card, u64::MAX, &[0; 2]),
            one,
        );
    }
    let mut card = area(65_536);
    same(
        count,
        "65,536 blocks",
        store::ream(&mut card, 1, 14_336, 0, b"fs"),
        ACCEPTED,
    );
    same(count, "its beta", beta(&card), 113);
    put(&mut card, 0, BETA, 65_535);
    same(count, "last block", write(&mut card, 14_335), ACCEPTED);
    same(count, "beta at the end", beta(&card), 65_536);
    same(
        count,
        "read of the last block",
        read(&card, 14_335),
        (ACCEPTED, vec![1; BLOCK]),
    );
    let visit = store::visit(&card, &Target::Active, Logical(14_335));
    let fs = Some(store::padded(b"fs"));
    same(count, "visit of the last block", visit, (ACCEPTED, fs));
    same(count, "no block left", write(&mut card, 0), answer(11, 0));
    same(
        count,
        "overwriting goes on",
        write(&mut card, 14_335),
        ACCEPTED,
    );
    same(
        count,
        "N 113",
        store::ream(&mut area(113), 1, 14_336, 0, b"fs"),
        ACCEPTED,
    );
    same(
        count,
        "N 112",
        store::ream(&mut area(112), 1, 14_336, 0, b"fs"),
        answer(5, 0),
    );
}

/// Which refusal comes first.
fn ladders(count: &mut Count) {
    let mut card = area(2);
    same(
        count,
        "2 before 3",
        store::ream(&mut card, 0, 0, 0, b""),
        answer(2, 0),
    );
    same(
        count,
        "3 before 4",
        store::ream(&mut card, 1, 0, 0, b""),
        answer(3, 0),
    );
    same(
        count,
        "4 before 5",
        store::ream(&mut card, 1, 14_336, 0, b""),
        answer(4, 0),
    );
    same(count, "refused reams leave the card", card.clone(), area(2));
    let upper = Target::Snapshot(b"MON".to_vec());
    let known = Target::Snapshot(b"mon".to_vec());
    let mut short = [3; 511];
    same(
        count,
        "4 before 9",
        store::read(&card, &upper, Logical(0), &mut short),
        answer(4, 0),
    );
    same(
        count,
        "9 before 6",
        store::read(&card, &known, Logical(0), &mut short),
        answer(9, 0),
    );
    same(count, "the lent block stays", short, [3; 511]);
    same(
        count,
        "write, 9 before 6",
        store::write(&mut card, Logical(0), &short),
        answer(9, 0),
    );
    same(count, "6 before 8", write(&mut card, 65_535), answer(6, 0));
    let card = reamed(2, 9, 4);
    let mut lent = [3; BLOCK];
    same(
        count,
        "7 before 8",
        store::read(&card, &known, Logical(9), &mut lent),
        answer(7, 0),
    );
    let active = Target::Snapshot(b"fs".to_vec());
    same(
        count,
        "7, active name",
        store::read(&card, &active, Logical(0), &mut lent),
        answer(7, 0),
    );
    let mut records = [Record {
        alpha: 9,
        ..NOTHING
    }; 3];
    let mut longer = card.clone();
    store::snap(&mut longer, b"a");
    same(
        count,
        "14",
        store::list(&longer, &mut records[..1]).0,
        answer(14, 0),
    );
    same(count, "the lent list stays", records[0].alpha, 9);
    same(
        count,
        "list of 3 records",
        store::list(&longer, &mut records),
        (ACCEPTED, 2),
    );
    same(count, "the third stays", records[2].alpha, 9);
    same(
        count,
        "14, empty list",
        store::list(&card, &mut []).0,
        answer(14, 0),
    );
}

/// The cases by hand, on an area of zeros and on one of other bytes.
fn by_hand(count: &mut Count) {
    let cases = cases::all().into_iter().chain(visits::all());
    for case in cases.chain(spans::all()) {
        for fill in [0, 0xff] {
            let mut card = vec![fill; case.blocks * BLOCK];
            for (k, step) in case.steps.iter().enumerate() {
                step.prepare(&mut card);
                let before = card.clone();
                let said = carry_out(&mut card, &step.call);
                let result = step.compare(&said, &before, &card);
                let name = format!("{}, on bytes of {fill}, call {k}", case.name);
                count.case(&name, result);
            }
        }
    }
}
