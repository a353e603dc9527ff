//! Damage to bytes 40 to 63 of a descriptor, and what documents 01 and 02 then have a call answer.

use crate::numbers::*;
use crate::rng::Rng;
use crate::store::{store_number, Answer, Record, ACCEPTED};

/// Damages one descriptor of a sound card with this listing. Gives the answer of a call that has
/// come as far as the chain.
pub fn damage(rng: &mut Rng, card: &mut [u8], chain: &[Record]) -> Answer {
    let k = match rng.below(3) {
        0 => 0,
        1 => chain.len() - 1,
        _ => rng.below(chain.len() as u64) as usize,
    };
    let from = chain[k].alpha as usize * BLOCK;
    let other = 1 - u64::from(card[REVISION]);
    let mut fault = chain.get(k);
    match rng.below(3) {
        0 => {
            let none = *rng.pick(&NO_REVISIONS);
            store_number(card, from + REVISION, u64::from(none));
        }
        1 => {
            store_number(card, from + REVISION, other);
            // Block 0 may have either; then the second descriptor, if any, has another than it.
            if k == 0 {
                fault = chain.get(1);
            }
        }
        _ => {
            let zeros = (PHI - REVISION_END) as u64;
            card[from + REVISION_END + rng.below(zeros) as usize] = rng.between(1, 255) as u8;
        }
    }
    fault.map_or(ACCEPTED, |record| Answer {
        number: 6,
        place: record.alpha,
    })
}
