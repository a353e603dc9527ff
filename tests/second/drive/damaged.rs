//! Random calls on damaged cards. Damage to bytes 40 to 63 of a descriptor alone is met by 6 with
//! its place.

use crate::boundary::{by_own, Ask};
use crate::call::{Call, Kind};
use crate::lent::{noise, Lent};
use crate::lists::{random_shape, random_volume, unformatted, Maker, Shape, MANY_SNAPS};
use crate::numbers::*;
use crate::pair::Pair;
use crate::reserved;
use crate::rng::Rng;
use crate::store::{self, Logical, Record, Target, NOTHING};
use crate::table::Table;

/// The kinds of calls on a damaged card, some more often.
const OFTEN: [Kind; 19] = [
    Kind::Read,
    Kind::Read,
    Kind::Read,
    Kind::Write,
    Kind::Write,
    Kind::Write,
    Kind::Snap,
    Kind::Revert,
    Kind::List,
    Kind::Check,
    Kind::Check,
    Kind::Visit,
    Kind::Visit,
    Kind::ReadSpan,
    Kind::ReadSpan,
    Kind::ReadSpan,
    Kind::WriteSpan,
    Kind::WriteSpan,
    Kind::WriteSpan,
];

/// The list of a seed: a card in use, damage, calls, more damage, more calls.
pub fn one(seed: u64, table: &mut Table) -> Result<(), String> {
    let mut rng = Rng::new(seed);
    let wide = rng.once_in(250);
    let shape = match wide {
        true => wide_shape(&mut rng),
        false => random_shape(&mut rng, false).0,
    };
    let (layout, volume, revision) = (shape.layout, shape.volume, shape.revision);
    let (length, sizes) = (shape.length, shape.words());
    let mut card = unformatted(&mut rng, shape.blocks);
    let mut maker = Maker::new(rng, shape);
    in_use(&mut maker, &mut card, length);
    reserved_bytes(&mut maker.rng, &card, table)
        .map_err(|reason| format!("{sizes}: bytes 40 to 63: {reason}"))?;

    let rounds = if wide { 2 } else { maker.rng.between(1, 5) };
    for round in 0..rounds {
        let mut damaged = card.clone();
        let (names, hot) = (maker.names.clone(), maker.hot.clone());
        for _ in 0..maker.rng.between(1, 3) {
            damage(&mut maker, &mut damaged);
        }
        if maker.rng.once_in(15) {
            let most = damaged.len() as u64;
            let length = match maker.rng.below(2) {
                0 => maker.rng.below(most / BLOCK as u64) * BLOCK as u64,
                _ => maker.rng.below(most),
            };
            damaged.truncate(length as usize);
        }
        let mut pair = Pair::new(Lent::new(&mut maker.rng, &damaged, 1_100));
        for k in 0..maker.rng.between(10, 24) {
            let area = maker.area_length(&pair.own);
            // Reams last: they make the card good again.
            let kind = match k {
                0 => Kind::Check,
                22.. => Kind::Ream,
                _ => *maker.rng.pick(&OFTEN),
            };
            let ask = maker.make(kind, pair.own.part());
            let (answer, _) = pair.call(area, &ask, table).map_err(|reason| {
                let words = ask.words();
                format!("{sizes}: round {round}, call {k}, {words} on {area} bytes: {reason}")
            })?;
            maker.after(&ask, answer.0);
        }
        // The next round takes the good card again.
        maker.names = names;
        maker.hot = hot;
        maker.shape.layout = layout;
        maker.shape.volume = volume;
        maker.shape.revision = revision;
    }
    Ok(())
}

/// A card of many thousands of blocks.
fn wide_shape(rng: &mut Rng) -> Shape {
    Shape {
        layout: rng.between(1, 2) as u32,
        volume: random_volume(rng, MOST_VOLUME),
        revision: rng.below(2) as u32,
        blocks: *rng.pick(&[MOST_BLOCKS as usize, 65_535, 40_000, 20_000]),
        length: rng.between(300, 1_500),
        snap_weight: *rng.pick(&[20, 200, MANY_SNAPS]),
    }
}

/// Formats the card and uses it by the own store. Spans are left out: each would check the card.
fn in_use(maker: &mut Maker, card: &mut [u8], length: u64) {
    let mut ask = maker.first_ream();
    by_own(card, &mut ask);
    maker.after(&ask, 0);
    maker.steady = true;
    for _ in 0..length {
        let mut ask = maker.next(card);
        if matches!(
            ask,
            Ask::Check
                | Ask::Read { .. }
                | Ask::List { .. }
                | Ask::Visit { .. }
                | Ask::ReadSpan { .. }
                | Ask::WriteSpan { .. }
        ) {
            continue;
        }
        let answer = by_own(card, &mut ask);
        maker.after(&ask, answer.0);
    }
    maker.steady = false;
}

/// Damages bytes 40 to 63 of one descriptor of a good card, and has every call but ream meet it.
fn reserved_bytes(rng: &mut Rng, card: &[u8], table: &mut Table) -> Result<(), String> {
    let mut damaged = card.to_vec();
    let mut records = [NOTHING; MOST_DESCRIPTORS];
    let (listed, count) = store::list(card, &mut records);
    if listed != store::ACCEPTED {
        return Err(format!("a good card: {listed:?}"));
    }
    let expected = reserved::damage(rng, &mut damaged, &records[..count]);
    let expected = (expected.number as u32, expected.place as u32);
    let records = records.to_vec();
    let mut calls = vec![Call::Check, Call::List { lent: records }];
    if expected != (0, 0) {
        let (logical, lent) = (Logical(0), vec![7; BLOCK]);
        let name = b"new".to_vec();
        calls.push(Call::Read {
            target: Target::Active,
            logical,
            lent: lent.clone(),
        });
        calls.push(Call::Write { logical, lent });
        calls.push(Call::Snap { name: name.clone() });
        calls.push(Call::Revert { name });
        calls.push(Call::Visit {
            target: Target::Active,
            logical,
        });
        calls.push(Call::ReadSpan {
            target: Target::Active,
            offset: 0,
            lent: vec![7; 700],
        });
        calls.push(Call::WriteSpan {
            offset: u64::MAX,
            lent: vec![7; 700],
        });
    }
    let mut pair = Pair::new(Lent::new(rng, &damaged, 0));
    for call in calls {
        let ask = Ask::of(&call, rng);
        let (answer, _) = pair.call(damaged.len(), &ask, table)?;
        if answer != expected {
            let words = ask.words();
            return Err(format!("{words}: {answer:?} and not {expected:?}"));
        }
    }
    Ok(())
}

fn number_at(card: &[u8], at: usize) -> u32 {
    store::number_at(card, at) as u32
}

fn put(card: &mut [u8], at: usize, value: u32) {
    store::store_number(card, at, u64::from(value));
}

/// Has a logical block used about every third time.
fn use_often(hot: &mut Vec<u32>, logical: u32) {
    for _ in 0..hot.len() / 2 + 1 {
        hot.push(logical);
    }
}

/// Changes the card in one place, and has logical blocks near it used.
fn damage(maker: &mut Maker, card: &mut [u8]) {
    let blocks = (card.len() / BLOCK) as u64;
    let (layout, volume) = (maker.shape.layout, maker.shape.volume);
    let mut records = [NOTHING; MOST_DESCRIPTORS];
    let (_, count) = store::list(card, &mut records);
    let records = &records[..count.max(1)];
    let rng = &mut maker.rng;
    // The last and the first descriptors more often.
    let descriptor = match rng.below(4) {
        0 => records[0],
        1 => *rng.pick(records),
        _ => records[records.len() - 1],
    };
    let start = descriptor.alpha as usize * BLOCK;
    let entries = TABLE_ENTRIES as u32;
    let tables = volume.div_ceil(entries);
    let i = match rng.below(3) {
        0 => rng.below(u64::from(tables)) as u32,
        _ => *rng.pick(&maker.hot) / entries,
    };
    let value = any_entry(rng, card, records, &descriptor, blocks);
    match rng.below(30) {
        0 => {
            let byte = rng.below(PHI as u64) as usize;
            card[start + byte] ^= 1 << rng.below(8);
        }
        1 => {
            let field = *rng.pick(&[LAYOUT, VOLUME, ALPHA, BETA, BETA, NEXT, NEXT]);
            put(card, start + field, value);
        }
        7..=9 if layout == 2 => {
            let i = match rng.below(4) {
                0 => rng.below(PHI_ENTRIES) as u32,
                1 => tables % PHI_ENTRIES as u32,
                _ => i % PHI_ENTRIES as u32,
            };
            put(card, start + phi_byte(u64::from(i)), value);
            let j = rng.below(TABLE_ENTRIES) as u32;
            let logical = match rng.below(2) {
                0 => *rng.pick(&maker.hot),
                _ => (i * entries + j) % volume,
            };
            use_often(&mut maker.hot, logical);
        }
        2..=14 => {
            let table = match layout {
                1 => descriptor.alpha as u32 + 1 + i,
                _ => number_at(card, start + phi_byte(u64::from(i) % PHI_ENTRIES)),
            };
            let j = match rng.below(4) {
                0 => rng.below(TABLE_ENTRIES) as u32,
                1 => (volume % entries + rng.below(3) as u32) % entries,
                _ => *rng.pick(&maker.hot) % entries,
            };
            if table != 0 && u64::from(table) < blocks {
                put(
                    card,
                    table as usize * BLOCK + entry_byte(u64::from(j)),
                    value,
                );
                use_often(&mut maker.hot, (i * entries + j) % volume);
            }
        }
        15 => {
            let block = rng.below(blocks) as usize * BLOCK;
            card[block..block + BLOCK].copy_from_slice(&noise(rng, BLOCK));
        }
        16 => {
            let from = match rng.below(2) {
                0 => start,
                _ => rng.below(blocks) as usize * BLOCK,
            };
            let to = rng.below(blocks) as usize * BLOCK;
            card.copy_within(from..from + BLOCK, to);
        }
        17 => {
            let at = rng.below(card.len() as u64) as usize;
            card[at] ^= rng.between(1, 255) as u8;
        }
        18 => {
            let other = rng.pick(records).name;
            card[start + NAME..start + NAME_END].copy_from_slice(&other);
        }
        19 => {
            let at = start + NAME + rng.below(NAME_SIZE as u64) as usize;
            card[at] = *rng.pick(b"\0\0a-A/{");
        }
        20 | 21 => {
            // Beta greater, with old blocks now below it.
            let active = records[records.len() - 1];
            let beta = rng.between(active.beta.min(blocks), blocks) as u32;
            put(card, active.alpha as usize * BLOCK + BETA, beta);
        }
        22 | 23 => {
            // A spare block below a greater beta, named once: by an entry near L or near n.
            let active = records[records.len() - 1];
            let from = active.alpha as usize * BLOCK;
            let last = tables - 1;
            let table = match layout {
                1 => active.alpha as u32 + 1 + last,
                _ => number_at(card, from + phi_byte(u64::from(last))),
            };
            if count > 0 && active.beta < blocks {
                put(card, from + BETA, active.beta as u32 + 1);
                let j = (volume + entries - 1 + rng.below(3) as u32) % entries;
                let past = (u64::from(tables) + PHI_ENTRIES - 1 + rng.below(3)) % PHI_ENTRIES;
                let at = match layout == 2 && rng.once_in(3) {
                    true => from + phi_byte(past),
                    false => table as usize % blocks as usize * BLOCK + entry_byte(u64::from(j)),
                };
                if at >= BLOCK || at >= PHI && layout == 2 {
                    put(card, at, active.beta as u32);
                }
            }
        }
        24 => {
            let revision = match rng.below(2) {
                0 => rng.below(2) as u32,
                _ => *rng.pick(&NO_REVISIONS),
            };
            put(card, start + REVISION, revision);
        }
        25 => {
            let zeros = (PHI - REVISION_END) as u64;
            let at = start + REVISION_END + rng.below(zeros) as usize;
            card[at] ^= rng.between(1, 255) as u8;
        }
        26 | 27 => {
            // The other revision in every descriptor: as good as before, with the other rule.
            if count > 0 {
                let other = 1 - number_at(card, REVISION);
                for record in records {
                    put(card, record.alpha as usize * BLOCK + REVISION, other);
                }
                maker.shape.revision = other;
            }
        }
        _ => {
            // One descriptor more after the last: good but for what is damaged beside it,
            // and where it is the 257th.
            let active = records[records.len() - 1];
            let cost = store::opening_cost(u64::from(layout), u64::from(volume));
            if count > 0 && active.beta + cost <= blocks {
                let from = active.alpha as usize * BLOCK;
                let to = active.beta as usize * BLOCK;
                card.copy_within(from..from + cost as usize * BLOCK, to);
                put(card, from + NEXT, active.beta as u32);
                put(card, to + ALPHA, active.beta as u32);
                put(card, to + BETA, (active.beta + cost) as u32);
                let name = crate::lists::random_name(rng);
                card[to + NAME..to + NAME_END].copy_from_slice(&name);
            }
        }
    }
}

/// A number that may stand where an entry or a field stands.
fn any_entry(
    rng: &mut Rng,
    card: &[u8],
    records: &[Record],
    descriptor: &Record,
    blocks: u64,
) -> u32 {
    let blocks = blocks as u32;
    let other = *rng.pick(records);
    let near = match rng.below(10) {
        0 => descriptor.alpha as u32,
        1 => descriptor.beta as u32,
        2 => other.alpha as u32,
        3 => other.beta as u32,
        4 => *rng.pick(&[0, blocks, MOST_BLOCKS as u32, 1 << 31, u32::MAX]),
        5 | 6 => {
            // A number that stands in some block of the region, or in the descriptor.
            let low = descriptor.alpha;
            let high = descriptor
                .beta
                .clamp(low + 1, u64::from(blocks).max(low + 1));
            let block = low + rng.below((high - low).min(6));
            number_at(
                card,
                block as usize * BLOCK + entry_byte(rng.below(TABLE_ENTRIES)),
            )
        }
        7 | 8 => rng.below(descriptor.beta.max(1)) as u32,
        _ => return rng.below(u64::from(blocks) + 2) as u32,
    };
    match rng.below(6) {
        0 => near.wrapping_add(1),
        1 => near.wrapping_sub(1),
        _ => near,
    }
}
