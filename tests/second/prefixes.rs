//! Runs the pass that makes a snap's new descriptor, stopped after each number of bytes from 0
//! to 512, beside the own store and on areas of random bytes, and compares every byte.

// Only a part of the store is used here.
#![allow(dead_code)]

mod numbers;
mod rng;
mod store;

use numbers::{BLOCK, MOST_VOLUME, NAME_SIZE, TABLE_ENTRIES};
use rng::Rng;
use std::process::ExitCode;
use store::{Logical, Record, ACCEPTED, NOTHING};

const USAGE: &str = "\
prefixes SEED COUNT    random cards and areas, each with all 513 prefixes
";

#[link(name = "prefixes", kind = "static")]
extern "C" {
    /// 1, or 0 where the pass cannot be made. The lent areas are given by pointer and length.
    fn store_prefix(
        card: *mut u8,
        card_length: usize,
        from: u32,
        to: u32,
        head: *const u8,
        head_length: usize,
        bytes: u32,
    ) -> u32;
}

/// The tests' library on a card: its number.
fn library(card: &mut [u8], from: u64, to: u64, head: &[u8], bytes: usize) -> u32 {
    // SAFETY: both slices are valid for their lengths, and the library keeps neither.
    unsafe {
        store_prefix(
            card.as_mut_ptr(),
            card.len(),
            from as u32,
            to as u32,
            head.as_ptr(),
            head.len(),
            bytes as u32,
        )
    }
}

/// Random bytes.
fn noise(rng: &mut Rng, length: usize) -> Vec<u8> {
    (0..length).map(|_| rng.below(256) as u8).collect()
}

/// A random card in use, whose free blocks hold other bytes, with room for one more snap.
fn card_in_use(rng: &mut Rng) -> Vec<u8> {
    let layout = rng.between(1, 2);
    let volume = match rng.below(4) {
        0 => rng.between(1, 5),
        1 => *rng.pick(&[127, 128, 129, 256, 257]),
        2 => rng.between(1, 1_000),
        _ if layout == 2 => MOST_VOLUME,
        _ => rng.between(1, 400),
    };
    let cost = store::opening_cost(layout, volume);
    let blocks = rng.between(2 * cost, 2 * cost + 12);
    let mut card = noise(rng, blocks as usize * BLOCK);
    let revision = rng.below(2);
    let reamed = store::ream(&mut card, layout, volume, revision, b"fs");
    assert_eq!(reamed, ACCEPTED);
    for k in 0..rng.below(16) {
        let before = card.clone();
        if rng.once_in(4) {
            store::snap(&mut card, format!("v{k}").as_bytes());
        } else {
            let near = volume.min(TABLE_ENTRIES * rng.between(1, 3));
            let block = noise(rng, BLOCK);
            store::write(&mut card, Logical(rng.below(near)), &block);
        }
        if store::snap(&mut card.clone(), b"next") != ACCEPTED {
            return before;
        }
    }
    card
}

/// The active region, which a listing has last.
fn active(card: &[u8]) -> Record {
    let mut records = [NOTHING; 20];
    let (answer, count) = store::list(card, &mut records);
    assert_eq!(answer, ACCEPTED);
    records[count - 1]
}

/// The card when a snap's one pass over the new descriptor is stopped after that many bytes
/// (document 02, W3), from the cards before and after the snap: the tables stand, the first bytes of
/// the new block are as the snap leaves them, all else is as it was, the old descriptor too.
fn stopped(card: &[u8], after: &[u8], region: Record, bytes: usize) -> Vec<u8> {
    let new = region.beta as usize * BLOCK;
    let end = active(after).beta as usize * BLOCK;
    let mut own = card.to_vec();
    own[new + BLOCK..end].copy_from_slice(&after[new + BLOCK..end]);
    own[new..new + bytes].copy_from_slice(&after[new..new + bytes]);
    own
}

/// What one card shows: how many comparisons were made.
fn one(seed: u64) -> Result<u64, String> {
    let mut rng = Rng::new(seed);
    let card = card_in_use(&mut rng);
    let region = active(&card);
    let mut after = card.clone();
    assert_eq!(store::snap(&mut after, b"next"), ACCEPTED);
    let new = region.beta as usize * BLOCK;

    // The descriptor by value: of its block only bytes 4 to 39 count, since the pass has the mark itself.
    let mut head = noise(&mut rng, BLOCK);
    head[4..24 + NAME_SIZE].copy_from_slice(&after[new + 4..new + 24 + NAME_SIZE]);

    let found = stopped(&card, &after, region, 0);
    for bytes in 0..=BLOCK {
        let own = stopped(&card, &after, region, bytes);
        let mut other = found.clone();
        let number = library(&mut other, region.alpha, region.beta, &head, bytes);
        if number != 1 {
            return Err(format!("{bytes} bytes: the library gives {number}"));
        }
        if let Some(at) = (0..own.len()).find(|at| own[*at] != other[*at]) {
            let place = (at / BLOCK, at % BLOCK);
            return Err(format!("{bytes} bytes: block and byte {place:?} differ"));
        }
    }

    Ok(BLOCK as u64 + 1)
}

/// The same on random bytes, of any length and with any two blocks, one block twice among them: the
/// mark, then bytes 4 to 39 of the head, then bytes 40 to 511 of the old block.
fn on_noise(seed: u64) -> Result<u64, String> {
    let mut rng = Rng::new(seed ^ 0x5eed);
    let blocks = rng.between(1, 6);
    let length = blocks * BLOCK as u64 + rng.below(2) * rng.below(BLOCK as u64);
    let area = noise(&mut rng, length as usize);
    let head = noise(&mut rng, BLOCK);
    let (from, to) = (rng.below(blocks), rng.below(blocks));
    let old = from as usize * BLOCK;
    let mut made = b"snap".to_vec();
    made.extend_from_slice(&head[4..24 + NAME_SIZE]);
    made.extend_from_slice(&area[old + made.len()..old + BLOCK]);
    for bytes in 0..=BLOCK {
        let mut own = area.clone();
        own[to as usize * BLOCK..][..bytes].copy_from_slice(&made[..bytes]);
        let mut other = area.clone();
        let number = library(&mut other, from, to, &head, bytes);
        if number != 1 || own != other {
            return Err(format!("{bytes} bytes from {from} to {to}: {number}"));
        }
    }

    // What cannot be made stores nothing.
    let long = noise(&mut rng, BLOCK + 1);
    let refused: [(u64, u64, &[u8], usize); 8] = [
        (from, to, &head, BLOCK + 1),
        (from, to, &head, u32::MAX as usize),
        (from, to, &long, BLOCK),
        (from, to, &long[2..], BLOCK),
        (from, to, &[], 0),
        (blocks, to, &head, BLOCK),
        (from, blocks, &head, BLOCK),
        (u32::MAX as u64, u32::MAX as u64, &head, BLOCK),
    ];
    let count = refused.len() as u64;
    for (k, (from, to, head, bytes)) in refused.into_iter().enumerate() {
        let mut other = area.clone();
        let number = library(&mut other, from, to, head, bytes);
        if number != 0 || other != area {
            return Err(format!("refusal {k}: the library gives {number}"));
        }
    }
    if library(&mut [], 0, 0, &head, 0) != 0 {
        return Err("an area of no bytes".to_string());
    }
    Ok(BLOCK as u64 + 1 + count + 1)
}

fn main() -> ExitCode {
    let words: Vec<String> = std::env::args().skip(1).collect();
    if let [seed, count] = &words[..] {
        if let (Ok(seed), Ok(count)) = (seed.parse::<u64>(), count.parse::<u64>()) {
            let (mut passed, mut failed) = (0, 0);
            for this in seed..seed + count {
                for (what, shown) in [("a snap", one(this)), ("random bytes", on_noise(this))] {
                    match shown {
                        Ok(compared) => passed += compared,
                        Err(reason) => {
                            failed += 1;
                            println!("failed: seed {this}, {what}: {reason}");
                        }
                    }
                }
            }
            println!("{passed} passed, {failed} failed");
            return ExitCode::from(u8::from(failed > 0));
        }
    }
    eprint!("{USAGE}");
    ExitCode::from(2)
}
