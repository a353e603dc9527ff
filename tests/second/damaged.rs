//! Random damage to cards in use: no call may come to grief, a refused call leaves card and
//! lent memory, and an accepted one leaves a sound chain. A visit answers as a read does, and its
//! name is reckoned from the listing. A span is held against calls of whole blocks. Damage to bytes
//! 40 to 63 of a descriptor alone is met by 6 with its place.

use crate::blockwise;
use crate::call::{carry_out, Call, KINDS};
use crate::counts::{all_met, Counts, Spans, ENOUGH};
use crate::extent;
use crate::numbers::*;
use crate::reserved;
use crate::rng::Rng;
use crate::store::{self, number_at, Answer, Logical, Name, Target, NOTHING};
use crate::values::same;
use crate::Count;

/// For each kind of call the numbers that can arise. There is no ream here, a lent block has 512
/// bytes, and the cards have too few blocks for 255 snapshots.
const CAN_ARISE: [&[u64]; KINDS.len()] = [
    &[],
    &[0, 1, 4, 6, 7, 8, 10],
    &[0, 1, 6, 8, 10, 11],
    &[0, 1, 4, 6, 11, 12],
    &[0, 1, 4, 6, 7],
    &[0, 1, 6, 14],
    &[0, 1, 6, 10],
    &[0, 1, 4, 6, 7, 8, 10],
    &[0, 1, 4, 6, 7, 10, 16],
    &[0, 1, 6, 10, 11, 16],
];

/// Runs the cards of `count` seeds and prints how often each number arose.
pub fn run(seed: u64, count: u64) -> Count {
    let mut sum = Count::default();
    let (mut answers, mut spans) = (Counts::default(), Spans::default());
    for k in 0..count {
        let this = seed.wrapping_add(k);
        let result = one(this, &mut answers, &mut spans);
        sum.case(&format!("seed {this}"), result);
    }
    answers.print("call", &KINDS, &ANSWERS);
    let missing = answers.missing(&KINDS, &CAN_ARISE);
    let met = all_met("answers", &missing, count, ENOUGH);
    sum.case("answers of each kind", met);
    let strange = answers.strange(&CAN_ARISE).count();
    same(&mut sum, "answers that cannot arise", strange, 0);
    spans.print();
    let met = all_met("spans", &spans.missing(), count, ENOUGH);
    sum.case("spans of each kind", met);
    sum
}

/// A card in use, of either revision.
fn card_in_use(rng: &mut Rng, volume: u64) -> Vec<u8> {
    let layout = rng.between(1, 2);
    let blocks = rng.between(4, 60);
    let mut card = vec![0; blocks as usize * BLOCK];
    store::ream(&mut card, layout, volume, rng.below(2), b"fs");
    for k in 0..rng.below(blocks) {
        store::write(&mut card, Logical(rng.below(volume)), &[k as u8; BLOCK]);
        if rng.once_in(4) {
            store::snap(&mut card, format!("v{}", k % 8).as_bytes());
        }
    }
    card
}

/// Damages bytes 40 to 63 of one descriptor, and has every call but ream meet it.
fn reserved_bytes(rng: &mut Rng, good: &[u8]) -> Result<(), String> {
    let mut card = good.to_vec();
    let mut records = [NOTHING; MOST_DESCRIPTORS];
    let (listed, count) = store::list(&card, &mut records);
    if listed != store::ACCEPTED {
        return Err(format!("a good card: {listed:?}"));
    }
    let expected = reserved::damage(rng, &mut card, &records[..count]);
    let damaged = card.clone();
    let mut met = vec![store::list(&card, &mut records).0, store::check(&card)];
    if expected != store::ACCEPTED {
        let first = Logical(0);
        let mut lent = [0; BLOCK];
        met.push(store::read(&card, &Target::Active, first, &mut lent));
        met.push(store::write(&mut card, first, &lent));
        met.push(store::snap(&mut card, b"new"));
        met.push(store::revert(&mut card, b"v0"));
        met.push(store::visit(&card, &Target::Active, first).0);
        met.push(store::read_span(&card, &Target::Active, 0, &mut lent));
        met.push(store::write_span(&mut card, u64::MAX, &lent));
    }
    if let Some(answer) = met.into_iter().find(|answer| *answer != expected) {
        return Err(format!("{answer:?} and not {expected:?}"));
    }
    match card == damaged {
        true => Ok(()),
        false => Err("the card has changed".to_string()),
    }
}

/// The card with some of its numbers or bytes changed, and which numbers of their blocks these are.
fn damaged_card(rng: &mut Rng, mut card: Vec<u8>) -> (Vec<u8>, Vec<u64>) {
    let blocks = (card.len() / BLOCK) as u64;
    let mut changed = Vec::new();
    for _ in 0..rng.between(1, 4) {
        let block = rng.below(blocks) as usize;
        let numbers = *rng.pick(&[6, 20, TABLE_ENTRIES]);
        let number = rng.below(numbers);
        changed.push(number);
        let at = block * BLOCK + entry_byte(number);
        let value = match rng.below(6) {
            0 => rng.bits() as u32,
            1 => *rng.pick(&[0, 1, blocks as u32, u32::MAX]),
            _ => rng.below(blocks + 2) as u32,
        };
        store::store_number(&mut card, at, u64::from(value));
    }
    if rng.once_in(20) {
        let length = rng.below(card.len() as u64) as usize;
        card.truncate(length);
    }
    (card, changed)
}

/// A random call; it often uses a logical block whose entry was changed, if that stood in a table.
fn random_call(rng: &mut Rng, volume: u64, changed: &[u64]) -> Call {
    let name = match rng.below(40) {
        0 => rng.pick(&[&b""[..], b"V1", b"v1 "]).to_vec(),
        _ => format!("v{}", rng.below(9)).into_bytes(),
    };
    let logical = match rng.below(2) {
        0 => Logical(*rng.pick(changed) + TABLE_ENTRIES * rng.below(3)),
        _ => Logical(rng.below(310)),
    };
    let content = vec![rng.below(4) as u8; BLOCK];
    match rng.below(14) {
        0 => Call::Read {
            target: Target::Active,
            logical,
            lent: content,
        },
        1 => Call::Read {
            target: Target::Snapshot(name),
            logical,
            lent: content,
        },
        2 | 3 => Call::Write {
            logical,
            lent: content,
        },
        4 => Call::Snap { name },
        5 => Call::Revert { name },
        6 => Call::List {
            lent: vec![NOTHING; rng.below(30) as usize],
        },
        7 => Call::Check,
        8 => Call::Visit {
            target: Target::Active,
            logical,
        },
        9 => Call::Visit {
            target: Target::Snapshot(name),
            logical,
        },
        10 | 11 => {
            let (offset, lent) = random_span(rng, volume, logical);
            let target = match rng.once_in(2) {
                true => Target::Active,
                false => Target::Snapshot(name),
            };
            Call::ReadSpan {
                target,
                offset,
                lent,
            }
        }
        _ => {
            let (offset, lent) = random_span(rng, volume, logical);
            Call::WriteSpan { offset, lent }
        }
    }
}

/// The offset of a span near the logical block, and the lent memory.
fn random_span(rng: &mut Rng, volume: u64, logical: Logical) -> (u64, Vec<u8>) {
    let free = rng.below(12);
    let (offset, length) = extent::random(rng, volume, logical.0 % volume, free);
    (offset, (0..length).map(|k| (k / 3) as u8).collect())
}

/// The region of the block that a read of the target gives, by the listing and the entries: the
/// last that starts at or before it. Zeros where the entry is nil.
fn reckoned(card: &[u8], target: &Target, logical: Logical) -> Option<Name> {
    let mut records = [NOTHING; MOST_DESCRIPTORS];
    let count = store::list(card, &mut records).1;
    let records = &records[..count];
    let of = match target {
        Target::Active => records.last()?,
        Target::Snapshot(name) => {
            let name = store::padded(name);
            records.iter().find(|record| record.name == name)?
        }
    };
    let number = |block: u64, byte: usize| number_at(card, block as usize * BLOCK + byte);
    let (i, j) = (logical.0 / TABLE_ENTRIES, logical.0 % TABLE_ENTRIES);
    let table = match number(0, LAYOUT) {
        1 => of.alpha + 1 + i,
        _ => number(of.alpha, phi_byte(i)),
    };
    if table == 0 || number(table, entry_byte(j)) == 0 {
        return Some(Name::default());
    }
    let data = number(table, entry_byte(j));
    let mut regions = records.iter();
    regions
        .rfind(|record| record.alpha <= data)
        .map(|record| record.name)
}

/// Holds a visit against a read of the same block, and its name against the listing.
fn beside_read(
    card: &[u8],
    target: &Target,
    logical: Logical,
    said: (Answer, Name),
) -> Result<(), String> {
    let mut block = [1; BLOCK];
    let read = store::read(card, target, logical, &mut block);
    let name = match read == store::ACCEPTED {
        true => reckoned(card, target, logical),
        false => Some(Name::default()),
    };
    if said.0 != read || Some(said.1) != name {
        let names = (store::shown(&said.1), name.map(|name| store::shown(&name)));
        return Err(format!(
            "visit: {:?}, {} where a read has {read:?}, and {:?} is reckoned",
            said.0, names.0, names.1
        ));
    }
    if read == store::ACCEPTED && said.1 == Name::default() && block != [0; BLOCK] {
        return Err("no region for a block that holds something".to_string());
    }
    Ok(())
}

/// Runs some calls on one damaged card.
fn one(seed: u64, answers: &mut Counts, spans: &mut Spans) -> Result<(), String> {
    let mut rng = Rng::new(seed);
    let volume = rng.between(1, 300);
    let good = card_in_use(&mut rng, volume);
    reserved_bytes(&mut rng, &good)?;
    let (mut card, changed) = damaged_card(&mut rng, good);
    for _ in 0..20 {
        let before = card.clone();
        let call = random_call(&mut rng, volume, &changed);
        let said = carry_out(&mut card, &call);
        answers.add(call.kind() as usize, said.answer.number, 1);
        let (block, records) = call.lent();
        let refused = said.answer != store::ACCEPTED;
        if refused && (card != before || said.block != block || said.records != records) {
            return Err(format!("{:?} has changed something", said.answer));
        }
        if let Call::Visit { target, logical } = &call {
            beside_read(&card, target, *logical, (said.answer, said.visit))?;
        }
        let need = blockwise::hold(&mut carry_out, &call, &said, before, &card)?;
        if let Some(need) = need {
            spans.add_need(&call, &need);
        }
        if !refused {
            spans.add(&call);
        }
        let chain = store::list(&card, &mut [NOTHING; MOST_DESCRIPTORS]).0;
        if !refused && chain != store::ACCEPTED {
            return Err(format!("no chain any more: {chain:?}"));
        }
    }
    Ok(())
}
