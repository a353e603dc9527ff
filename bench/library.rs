// The ten calls of the static library, with the signatures of the baseline.
use crate::baseline::{Answer, Refusal};
use crate::declared::*;
use crate::numbers::Name;

fn answer(call: impl FnOnce(&mut u32) -> u32) -> Answer {
    let mut place = 0;
    match call(&mut place) {
        0 => Ok(()),
        number => Err(Refusal { number, place }),
    }
}

// In each call below the pointers and lengths are those of slices, or of a name, that do not overlap.

pub fn ream(card: &mut [u8], layout: u32, volume: u32, revision: u32, name: &[u8]) -> Answer {
    let (to, n) = (card.as_mut_ptr(), card.len());
    let (from, size) = (name.as_ptr(), name.len());
    answer(|place| unsafe { mantreuy_ream(to, n, layout, volume, revision, from, size, place) })
}

pub fn read(card: &[u8], snapshot: Option<&[u8]>, l: u32, out: &mut [u8]) -> Answer {
    let name = snapshot.unwrap_or(&[]);
    let is_snapshot = snapshot.is_some() as u32;
    answer(|place| unsafe {
        mantreuy_read(
            card.as_ptr(),
            card.len(),
            is_snapshot,
            name.as_ptr(),
            name.len(),
            l,
            out.as_mut_ptr(),
            out.len(),
            place,
        )
    })
}

pub fn read_span(card: &[u8], snapshot: Option<&[u8]>, offset: u64, out: &mut [u8]) -> Answer {
    let name = snapshot.unwrap_or(&[]);
    let is_snapshot = snapshot.is_some() as u32;
    answer(|place| unsafe {
        mantreuy_read_span(
            card.as_ptr(),
            card.len(),
            is_snapshot,
            name.as_ptr(),
            name.len(),
            offset,
            out.as_mut_ptr(),
            out.len(),
            place,
        )
    })
}

pub fn visit(card: &[u8], snapshot: Option<&[u8]>, l: u32, visit: &mut Name) -> Answer {
    let name = snapshot.unwrap_or(&[]);
    let is_snapshot = snapshot.is_some() as u32;
    answer(|place| unsafe {
        mantreuy_visit(
            card.as_ptr(),
            card.len(),
            is_snapshot,
            name.as_ptr(),
            name.len(),
            l,
            visit.as_mut_ptr(),
            place,
        )
    })
}

pub fn write(card: &mut [u8], l: u32, bytes: &[u8]) -> Answer {
    let (to, n) = (card.as_mut_ptr(), card.len());
    answer(|place| unsafe { mantreuy_write(to, n, l, bytes.as_ptr(), bytes.len(), place) })
}

pub fn write_span(card: &mut [u8], offset: u64, bytes: &[u8]) -> Answer {
    let (to, n) = (card.as_mut_ptr(), card.len());
    answer(|place| unsafe {
        mantreuy_write_span(to, n, offset, bytes.as_ptr(), bytes.len(), place)
    })
}

pub fn snap(card: &mut [u8], name: &[u8]) -> Answer {
    let (to, n) = (card.as_mut_ptr(), card.len());
    answer(|place| unsafe { mantreuy_snap(to, n, name.as_ptr(), name.len(), place) })
}

pub fn revert(card: &mut [u8], name: &[u8]) -> Answer {
    let (to, n) = (card.as_mut_ptr(), card.len());
    answer(|place| unsafe { mantreuy_revert(to, n, name.as_ptr(), name.len(), place) })
}

pub fn list(card: &[u8], records: &mut [u8]) -> Answer {
    let (to, room) = (records.as_mut_ptr(), records.len());
    answer(|place| unsafe { mantreuy_list(card.as_ptr(), card.len(), to, room, place) })
}

pub fn check(card: &[u8]) -> Answer {
    answer(|place| unsafe { mantreuy_check(card.as_ptr(), card.len(), place) })
}
