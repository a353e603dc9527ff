// The numbers of a card, those of the second program in the types that the baseline counts in.
#[allow(dead_code)]
#[path = "../tests/second/numbers.rs"]
mod paper;

pub use paper::{
    ALPHA, BETA, BLOCK, LAYOUT, MARK, MOST_DESCRIPTORS, MOST_SNAPSHOTS, NAME, NAME_END, NAME_SIZE,
    NEXT, NO_REVISIONS, NUMBER, PHI, REVISION, VOLUME,
};

pub const LEAST_BLOCKS: usize = paper::LEAST_BLOCKS as usize;
pub const MOST_BLOCKS: usize = paper::MOST_BLOCKS as usize;
pub const MOST_VOLUME: u32 = paper::MOST_VOLUME as u32;
pub const TABLE_ENTRIES: u32 = paper::TABLE_ENTRIES as u32;
pub const PHI_ENTRIES: usize = paper::PHI_ENTRIES as usize;

pub type Block = [u8; BLOCK];
pub type Name = [u8; NAME_SIZE];

// How many table blocks a volume has.
pub fn tables(volume: u32) -> u32 {
    volume.div_ceil(TABLE_ENTRIES)
}

// The opening cost c.
pub fn cost(layout: u32, volume: u32) -> u32 {
    match layout {
        1 => 1 + tables(volume),
        _ => 1,
    }
}
