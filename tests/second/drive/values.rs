//! The bench value of document 01 that is not marked, on the library and on the own store:
//! layout 2, N 256, 255 snaps pass, the next gives 13. Then the cases by hand of document 02's
//! revisions, visits and spans, and every call on chains of each length up to twelve.

use crate::boundary::Ask;
use crate::call::Call;
use crate::cases::{self, Case};
use crate::lent::Lent;
use crate::numbers::{BLOCK, NEXT};
use crate::pair::Pair;
use crate::rng::Rng;
use crate::spans;
use crate::store::{self, number_at, Logical, Target, NOTHING};
use crate::table::Table;
use crate::visits;

/// The value, on both revisions, and the cases, on an area of zeros and on one of other bytes.
pub fn one(seed: u64, table: &mut Table) -> Result<(), String> {
    let mut rng = Rng::new(seed);
    // The seed chooses the volume.
    let volume = [1, 128, 14_336][(seed % 3) as usize];
    for revision in [0, 1] {
        bench(&mut rng, volume, revision, table)?;
        for layout in [1, 2] {
            lengths(&mut rng, layout, revision.into(), table)?;
        }
    }
    let cases = cases::all().into_iter().chain(visits::all());
    for case in cases.chain(spans::all()) {
        for fill in [0, 0xff] {
            by_hand(&mut rng, &case, fill, table)
                .map_err(|reason| format!("{}, on bytes of {fill}: {reason}", case.name))?;
        }
    }
    Ok(())
}

fn bench(rng: &mut Rng, volume: u32, revision: u32, table: &mut Table) -> Result<(), String> {
    let area = vec![0; 256 * BLOCK];
    let mut pair = Pair::new(Lent::new(rng, &area, 0));
    let ream = Ask::Ream {
        layout: 2,
        volume,
        revision,
        name: name(rng, "fs"),
    };
    expect(&mut pair, &ream, 0, table)?;
    for k in 0..255 {
        let visit = name(rng, &format!("visit-{k}"));
        expect(&mut pair, &Ask::Snap { name: visit }, 0, table)?;
    }
    let visit = name(rng, "visit-255");
    expect(&mut pair, &Ask::Snap { name: visit }, 13, table)
}

/// A card of one to twelve descriptors: the library walks a short chain and a long one in
/// different ways.
fn lengths(rng: &mut Rng, layout: u64, revision: u64, table: &mut Table) -> Result<(), String> {
    let area = vec![0; 96 * BLOCK];
    let mut pair = Pair::new(Lent::new(rng, &area, 0));
    let mut run = |pair: &mut Pair, call: Call| {
        let ask = Ask::of(&call, rng);
        let words = ask.words();
        let said = pair.call(area.len(), &ask, table);
        said.map_err(|reason| format!("{words}: {reason}"))
            .map(|(answer, _)| answer)
    };
    let name = |text: &str| text.as_bytes().to_vec();
    let ream = Call::Ream {
        layout,
        volume: 200,
        revision,
        name: name("fs"),
    };
    run(&mut pair, ream)?;
    let mut visits: Vec<String> = Vec::new();
    for k in 0..12u64 {
        let blocks = [0, k, 199].map(Logical);
        for logical in blocks {
            let lent = vec![k as u8 + 1; BLOCK];
            run(&mut pair.clone(), Call::Write { logical, lent })?;
        }
        // Blocks k and k + 1, then 127 and 128.
        let offsets = [k * BLOCK as u64 + 300, 128 * BLOCK as u64 - 300];
        for offset in offsets {
            let lent = vec![k as u8 + 1; 700];
            run(&mut pair.clone(), Call::WriteSpan { offset, lent })?;
        }
        let lent = vec![k as u8 + 1; BLOCK];
        let logical = Logical(k);
        run(&mut pair, Call::Write { logical, lent })?;
        let mut broken = pair.clone();
        let alpha = BLOCK * last_start(pair.library.part());
        broken.damage(|card| card[alpha] ^= 1);
        for pair in [&mut pair, &mut broken] {
            let sound = run(pair, Call::Check)? == (0, 0);
            let lent = vec![NOTHING; 12];
            run(pair, Call::List { lent })?;
            let snapshots = visits
                .iter()
                .map(|v| Target::Snapshot(v.as_bytes().to_vec()));
            for target in snapshots.chain([Target::Active]) {
                for logical in blocks {
                    let lent = vec![0xee; BLOCK];
                    let target = target.clone();
                    run(
                        pair,
                        Call::Visit {
                            target: target.clone(),
                            logical,
                        },
                    )?;
                    run(
                        pair,
                        Call::Read {
                            target,
                            logical,
                            lent,
                        },
                    )?;
                }
                for offset in offsets {
                    let lent = vec![0xee; 700];
                    let target = target.clone();
                    run(
                        pair,
                        Call::ReadSpan {
                            target,
                            offset,
                            lent,
                        },
                    )?;
                }
            }
            for visit in visits.iter().map(String::as_str).chain(["none"]) {
                run(&mut pair.clone(), Call::Revert { name: name(visit) })?;
                run(&mut pair.clone(), Call::Snap { name: name(visit) })?;
            }
            if !sound {
                let lent = vec![1; BLOCK];
                run(pair, Call::Write { logical, lent })?;
                let (offset, lent) = (offsets[0], vec![1; 700]);
                run(pair, Call::WriteSpan { offset, lent })?;
            }
        }
        let visit = format!("visit-{k}");
        run(&mut pair, Call::Snap { name: name(&visit) })?;
        visits.push(visit);
    }
    Ok(())
}

/// The block of the last descriptor.
fn last_start(card: &[u8]) -> usize {
    let mut p = 0;
    loop {
        let next = number_at(card, BLOCK * p + NEXT) as usize;
        if next == 0 {
            return p;
        }
        p = next;
    }
}

/// Runs a case on both cards and holds the library's against it.
fn by_hand(rng: &mut Rng, case: &Case, fill: u8, table: &mut Table) -> Result<(), String> {
    let area = vec![fill; case.blocks * BLOCK];
    let mut pair = Pair::new(Lent::new(rng, &area, 0));
    for (k, step) in case.steps.iter().enumerate() {
        let ask = Ask::of(&step.call, rng);
        let named = |reason: String| format!("call {k}, {}: {reason}", ask.words());
        if !step.put.is_empty() {
            pair.damage(|card| step.prepare(card));
        }
        let before = pair.library.part().to_vec();
        let (answer, lent) = pair.call(area.len(), &ask, table).map_err(named)?;
        step.compare(&lent.said(answer), &before, pair.library.part())
            .map_err(named)?;
    }
    Ok(())
}

/// The call is answered with this number, place 0, on both cards alike.
fn expect(pair: &mut Pair, ask: &Ask, number: u32, table: &mut Table) -> Result<(), String> {
    let (answer, _) = pair.call(256 * BLOCK, ask, table)?;
    match answer == (number, 0) {
        true => Ok(()),
        false => Err(format!("{}: {answer:?} and not {number}", ask.words())),
    }
}

fn name(rng: &mut Rng, text: &str) -> Lent {
    Lent::new(rng, &store::padded(text.as_bytes()), 0)
}
