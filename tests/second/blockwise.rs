//! A span by calls of whole blocks: what the papers say of it in terms of these, on any card. The
//! store that made the span's call makes the blocks' calls too, the own one or the library.

use crate::call::{Call, Said};
use crate::extent::touched;
use crate::numbers::*;
use crate::store::{number_at, Answer, Logical, Record, Target, ACCEPTED, NOTHING};
use std::collections::BTreeSet;

/// Carries out a call on a card.
pub type Carry<'a> = &'a mut dyn FnMut(&mut [u8], &Call) -> Said;

/// What a span write needs, and how many blocks are free.
pub struct Need {
    pub need: u64,
    pub free: u64,
}

/// Holds a span's call against calls of whole blocks; any other call is passed over. `card` is the
/// card as the call found it, and is used up; `after` is the card as the call left it. Gives the
/// need of a span write that comes as far as that.
pub fn hold(
    carry: Carry,
    call: &Call,
    said: &Said,
    mut card: Vec<u8>,
    after: &[u8],
) -> Result<Option<Need>, String> {
    let (answer, lent, need) = match call {
        Call::ReadSpan {
            target,
            offset,
            lent,
        } => {
            let (answer, lent) = read(carry, &mut card, target, *offset, lent);
            (answer, lent, None)
        }
        Call::WriteSpan { offset, lent } => {
            let (answer, need) = write(carry, &mut card, *offset, lent)?;
            (answer, lent.clone(), need)
        }
        _ => return Ok(None),
    };
    if said.answer != answer {
        return Err(format!("{:?} and not {answer:?} by blocks", said.answer));
    }
    if said.block != lent {
        return Err("the lent bytes are not those of the blocks".to_string());
    }
    match card == after {
        true => Ok(need),
        false => Err("the card is another by blocks".to_string()),
    }
}

/// 16, where the span ends past the volume of a card with a sound chain.
fn outside(card: &[u8], offset: u64, length: usize) -> Option<Answer> {
    let end = number_at(card, VOLUME) * BLOCK as u64;
    let inside = offset <= end && length as u64 <= end - offset;
    (!inside).then_some(Answer {
        number: 16,
        place: 0,
    })
}

/// Reads one block.
fn block(carry: Carry, card: &mut [u8], target: &Target, logical: u64) -> Said {
    let call = Call::Read {
        target: target.clone(),
        logical: Logical(logical),
        lent: vec![0xa5; BLOCK],
    };
    carry(card, &call)
}

/// The byte of a span's lent memory at which a block begins, or would begin, and that of the block
/// at which the span begins: one of them is 0.
fn starts(offset: u64, logical: u64) -> (usize, usize) {
    let from = logical * BLOCK as u64;
    let lent = from.saturating_sub(offset);
    (lent as usize, offset.saturating_sub(from) as usize)
}

/// What a span read gives: the refusals of a read of block 0 down to 7; 16; the first refusal of
/// the blocks, rising; or the parts of the blocks.
fn read(
    carry: Carry,
    card: &mut [u8],
    target: &Target,
    offset: u64,
    lent: &[u8],
) -> (Answer, Vec<u8>) {
    let first = block(carry, card, target, 0).answer;
    if [1, 4, 6, 7].contains(&first.number) {
        return (first, lent.to_vec());
    }
    if let Some(refused) = outside(card, offset, lent.len()) {
        return (refused, lent.to_vec());
    }
    let mut run = Vec::new();
    for logical in touched(offset, lent.len()) {
        let said = block(carry, card, target, logical);
        if said.answer != ACCEPTED {
            return (said.answer, lent.to_vec());
        }
        run.extend_from_slice(&said.block[starts(offset, logical).1..]);
    }
    run.truncate(lent.len());
    (ACCEPTED, run)
}

/// What a span write gives, and the card after it: the refusals of check, 16 before 10; 11, where
/// the write of a block finds no room; or the card after the writes of all blocks. Beta moves by
/// what the entries say that it needs.
fn write(
    carry: Carry,
    card: &mut Vec<u8>,
    offset: u64,
    lent: &[u8],
) -> Result<(Answer, Option<Need>), String> {
    let checked = carry(card, &Call::Check).answer;
    if [1, 6].contains(&checked.number) {
        return Ok((checked, None));
    }
    if let Some(refused) = outside(card, offset, lent.len()) {
        return Ok((refused, None));
    }
    if checked != ACCEPTED {
        return Ok((checked, None));
    }
    let before = card.clone();
    let active = active(carry, card)?;
    let need = need(card, &active, offset, lent.len());
    let free = (card.len() / BLOCK) as u64 - active.beta;
    let answer = write_blocks(carry, card, offset, lent);
    if answer != ACCEPTED {
        *card = before;
    }
    let beta = self::active(carry, card)?.beta;
    let (number, taken) = match need <= free {
        true => (0, need),
        false => (11, 0),
    };
    if answer.number != number || beta != active.beta + taken {
        return Err(format!(
            "{answer:?} and beta {beta} by blocks, where beta was {} and the need is {need}",
            active.beta
        ));
    }
    Ok((answer, Some(Need { need, free })))
}

/// Writes the blocks of a span, rising, each with what it holds outside the span; the first refusal
/// ends it.
fn write_blocks(carry: Carry, card: &mut [u8], offset: u64, lent: &[u8]) -> Answer {
    for logical in touched(offset, lent.len()) {
        let mut bytes = block(carry, card, &Target::Active, logical).block;
        let (from, at) = starts(offset, logical);
        for (old, new) in bytes[at..].iter_mut().zip(&lent[from..]) {
            *old = *new;
        }
        let call = Call::Write {
            logical: Logical(logical),
            lent: bytes,
        };
        let answer = carry(card, &call).answer;
        if answer != ACCEPTED {
            return answer;
        }
    }
    ACCEPTED
}

/// The active region, which a listing has last.
fn active(carry: Carry, card: &mut [u8]) -> Result<Record, String> {
    let call = Call::List {
        lent: vec![NOTHING; MOST_DESCRIPTORS],
    };
    let said = carry(card, &call);
    if said.answer != ACCEPTED {
        return Err(format!("a list: {:?}", said.answer));
    }
    let mut records = said.records.into_iter();
    records
        .find(|record| record.next == 0)
        .ok_or("no last record".to_string())
}

/// What a span write needs on a card that passes check, by the entries: a block for each that has
/// none in the active region, and in layout 2 one for each group of these that has no table there.
fn need(card: &[u8], active: &Record, offset: u64, length: usize) -> u64 {
    let number = |block: u64, byte: usize| number_at(card, block as usize * BLOCK + byte);
    let layout = number(0, LAYOUT);
    let is_new = |block: u64| block == 0 || block < active.alpha;
    let (mut data, mut tables) = (0, BTreeSet::new());
    for logical in touched(offset, length) {
        let (i, j) = (logical / TABLE_ENTRIES, logical % TABLE_ENTRIES);
        let table = match layout {
            1 => active.alpha + 1 + i,
            _ => number(active.alpha, phi_byte(i)),
        };
        if table == 0 || is_new(number(table, entry_byte(j))) {
            data += 1;
            if layout == 2 && is_new(table) {
                tables.insert(i);
            }
        }
    }
    data + tables.len() as u64
}
