//! Texts made into names: random ones of 0 to 40 bytes, into buffers of any length.

use crate::boundary::pad_name;
use crate::lent::{noise, Lent};
use crate::lists::LETTERS;
use crate::numbers::NAME_SIZE;
use crate::rng::Rng;
use crate::store;
use crate::table::{Table, PAD};

/// Bytes next to the good ones, and others.
const BAD: &[u8] = b"`{/:,\0AZ_ @\x7f\x80\xe1\xff\n+~";

fn text(rng: &mut Rng) -> Vec<u8> {
    let length = match rng.below(4) {
        0 => *rng.pick(&[0, 1, 15, 16, 17, 40]),
        1 => rng.between(0, 40),
        _ => rng.between(1, NAME_SIZE as u64),
    };
    let mut text: Vec<u8> = (0..length).map(|_| *rng.pick(LETTERS)).collect();
    match rng.below(6) {
        0 if length > 0 => {
            let at = rng.below(length) as usize;
            text[at] = *rng.pick(BAD);
        }
        1 if length > 0 => {
            let at = rng.below(length) as usize;
            text[at] = rng.below(256) as u8;
        }
        2 => text = noise(rng, length as usize),
        _ => {}
    }
    text
}

/// A hundred texts.
pub fn one(seed: u64, table: &mut Table) -> Result<(), String> {
    let mut rng = Rng::new(seed);
    for k in 0..100 {
        let bytes = text(&mut rng);
        let length = match rng.below(8) {
            0 => *rng.pick(&[0, 1, 15, 17, 32]),
            _ => NAME_SIZE,
        };
        let before = noise(&mut rng, length);
        let mut lent_text = Lent::new(&mut rng, &bytes, 40);
        let mut name = Lent::new(&mut rng, &before, 40);
        let (same_text, mut expected) = (lent_text.clone(), name.clone());
        let number = if length == NAME_SIZE && store::is_name_text(&bytes) {
            expected.part_mut().copy_from_slice(&store::padded(&bytes));
            0
        } else {
            4
        };
        let said = pad_name(lent_text.part_mut(), name.part_mut());
        let at = format!(
            "call {k}, text \"{}\", buffer of {length}",
            bytes.escape_ascii()
        );
        table
            .count(PAD, said)
            .map_err(|reason| format!("{at}: {reason}"))?;
        if said != number {
            return Err(format!("{at}: {said} where {number} is right"));
        }
        if name != expected || lent_text != same_text {
            return Err(format!("{at}: lent memory differs"));
        }
    }
    Ok(())
}
