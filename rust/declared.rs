// The functions of the static library and the bytes of a record of a listing, as `include/mantreuy.h` has them.

/// Bytes in a record. It begins with the name.
pub const RECORD_SIZE: usize = 28;
/// Where alpha stands in a record.
pub const RECORD_ALPHA: usize = 16;
/// Where beta stands in a record.
pub const RECORD_BETA: usize = 20;
/// Where next stands in a record.
pub const RECORD_NEXT: usize = 24;

#[rustfmt::skip]
#[link(name = "mantreuy", kind = "static")]
unsafe extern "C" {
    pub fn mantreuy_ream(card: *mut u8, card_length: usize, layout: u32, volume: u32,
                         revision: u32, name: *const u8, name_length: usize,
                         place: *mut u32) -> u32;
    pub fn mantreuy_read(card: *const u8, card_length: usize, snapshot: u32,
                         name: *const u8, name_length: usize, block: u32,
                         out: *mut u8, out_length: usize, place: *mut u32) -> u32;
    pub fn mantreuy_read_span(card: *const u8, card_length: usize, snapshot: u32,
                              name: *const u8, name_length: usize, offset: u64,
                              out: *mut u8, out_length: usize, place: *mut u32) -> u32;
    // `visit` is sixteen bytes
    pub fn mantreuy_visit(card: *const u8, card_length: usize, snapshot: u32,
                          name: *const u8, name_length: usize, block: u32,
                          visit: *mut u8, place: *mut u32) -> u32;
    pub fn mantreuy_write(card: *mut u8, card_length: usize, block: u32,
                          bytes: *const u8, bytes_length: usize, place: *mut u32) -> u32;
    pub fn mantreuy_write_span(card: *mut u8, card_length: usize, offset: u64,
                               bytes: *const u8, bytes_length: usize, place: *mut u32) -> u32;
    pub fn mantreuy_snap(card: *mut u8, card_length: usize,
                         name: *const u8, name_length: usize, place: *mut u32) -> u32;
    pub fn mantreuy_revert(card: *mut u8, card_length: usize,
                           name: *const u8, name_length: usize, place: *mut u32) -> u32;
    pub fn mantreuy_list(card: *const u8, card_length: usize,
                         records: *mut u8, records_length: usize, place: *mut u32) -> u32;
    pub fn mantreuy_check(card: *const u8, card_length: usize, place: *mut u32) -> u32;
    pub fn mantreuy_pad_name(text: *const u8, text_length: usize,
                             name: *mut u8, name_length: usize) -> u32;
}
