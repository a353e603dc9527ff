//! The numbers that documents 01 and 02 fix for cards and calls.

/// Bytes in a block.
pub const BLOCK: usize = 512;
pub const LEAST_BLOCKS: u64 = 2;
pub const MOST_BLOCKS: u64 = 65_536;
pub const MOST_VOLUME: u64 = 14_336;
pub const TABLE_ENTRIES: u64 = 128;
pub const PHI_ENTRIES: u64 = 112;
pub const MOST_SNAPSHOTS: usize = 255;
pub const MOST_DESCRIPTORS: usize = MOST_SNAPSHOTS + 1;
/// Bytes in a name.
pub const NAME_SIZE: usize = 16;
/// Bytes in a stored number, and so in an entry.
pub const NUMBER: usize = 4;

// The bytes of a descriptor block.
pub const MARK: &[u8; 4] = b"snap";
pub const LAYOUT: usize = 4;
pub const VOLUME: usize = 8;
pub const ALPHA: usize = 12;
pub const BETA: usize = 16;
pub const NEXT: usize = 20;
pub const NAME: usize = 24;
pub const NAME_END: usize = NAME + NAME_SIZE;
pub const REVISION: usize = NAME_END;
/// From here up to Phi all bytes are zero.
pub const REVISION_END: usize = REVISION + NUMBER;
pub const PHI: usize = 64;

/// Some numbers that are no revision.
pub const NO_REVISIONS: [u32; 5] = [2, 256, 65_536, 1 << 24, u32::MAX];

/// The byte of a descriptor block at which entry i of Phi stands.
pub const fn phi_byte(i: u64) -> usize {
    PHI + NUMBER * i as usize
}

/// The byte of a table block at which entry j stands.
pub const fn entry_byte(j: u64) -> usize {
    NUMBER * j as usize
}

/// The numbers of the answers to calls.
pub const ANSWERS: [u64; 17] = [0, 1, 2, 3, 4, 5, 6, 7, 8, 9, 10, 11, 12, 13, 14, 16, 17];
