//! Where spans lie in a volume: the blocks that one touches, and random ones.

use crate::numbers::{BLOCK, TABLE_ENTRIES};
use crate::rng::Rng;
use std::ops::Range;

/// The most blocks of a random span, but for one of a whole volume.
const MOST_TOUCHED: u64 = 160;

/// A volume of at most so many blocks is also taken whole.
const MOST_WHOLE: u64 = 700;

/// The logical blocks that a span within a volume touches; none where its length is 0.
pub fn touched(offset: u64, length: usize) -> Range<u64> {
    match length as u64 {
        0 => 0..0,
        length => offset / BLOCK as u64..(offset + length - 1) / BLOCK as u64 + 1,
    }
}

/// A random offset and length, most often within the volume: near a block that is in use, and some
/// about as long as the free blocks of the card allow a write to be.
pub fn random(rng: &mut Rng, volume: u64, used: u64, free: u64) -> (u64, usize) {
    let end = volume * BLOCK as u64;
    if rng.once_in(16) {
        return at_end(rng, end);
    }
    if rng.once_in(24) {
        return past_end(rng, end);
    }
    if volume <= MOST_WHOLE && rng.once_in(100) {
        return (0, end as usize);
    }
    let used = used.min(volume - 1);
    let block = match rng.below(6) {
        0 => rng.below(volume),
        // The last block of a group.
        1 => (used | (TABLE_ENTRIES - 1)).min(volume - 1),
        2 => used.saturating_sub(rng.below(3)),
        _ => used,
    };
    let offset = block * BLOCK as u64 + first_byte(rng);
    let length = length(rng, offset, free).min(MOST_TOUCHED * BLOCK as u64);
    // Seldom past the end.
    match rng.once_in(30) {
        true => (offset, length as usize),
        false => (offset, length.min(end - offset) as usize),
    }
}

/// The byte of its first block at which a span begins.
fn first_byte(rng: &mut Rng) -> u64 {
    let block = BLOCK as u64;
    match rng.below(5) {
        0 => 0,
        1 => block - 1,
        2 => *rng.pick(&[1, 2, 255, 256, 257, block - 2]),
        _ => rng.below(block),
    }
}

/// A length at a block's end or around it, of one byte or some, of a few blocks, or of about as
/// many as are free.
fn length(rng: &mut Rng, offset: u64, free: u64) -> u64 {
    let block = BLOCK as u64;
    let to_end = block - offset % block;
    match rng.below(14) {
        0 => 0,
        1 => 1,
        2 => rng.between(1, 20),
        3 => to_end,
        4 => to_end + 1,
        5 => to_end - 1,
        6 => *rng.pick(&[block - 1, block, block + 1, 2 * block]),
        // A session record.
        7 | 8 => 700,
        9 => to_end + rng.between(1, 4) * block,
        10 => rng.between(1, 3 * block),
        11 => rng.between(1, 12 * block),
        _ => {
            // Each block takes one of the card's or two; the first and the last in part.
            let blocks = (free + 2).saturating_sub(rng.below(4)) / rng.between(1, 2);
            blocks * block + rng.below(to_end + 1)
        }
    }
}

/// A span near the volume's end: inside, up to it or one byte past it.
fn at_end(rng: &mut Rng, end: u64) -> (u64, usize) {
    let back = *rng.pick(&[0, 0, 1, 2, 511, 512, 513, 700]);
    let back = back.min(end);
    let length = match rng.below(4) {
        0 => 0,
        1 => back + 1,
        _ => back,
    };
    (end - back, length as usize)
}

/// A span that begins past the volume's end, or so far that offset and length exceed 64 bits.
fn past_end(rng: &mut Rng, end: u64) -> (u64, usize) {
    let length = *rng.pick(&[0, 1, 2, 511, 512, 513, 700]);
    let offset = match rng.below(6) {
        0 => end + 1,
        1 => end + rng.below(2_000),
        2 => *rng.pick(&[1 << 32, 1 << 41, 1 << 63]) + rng.below(end),
        3 => u64::MAX - rng.below(1_000),
        4 => (length as u64).wrapping_neg(),
        _ => u64::MAX,
    };
    (offset, length)
}
