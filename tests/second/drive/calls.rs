//! Random lists of calls on cards of every size.

use crate::boundary::Ask;
use crate::lent::Lent;
use crate::lists::{random_name, started, Maker};
use crate::numbers::{BLOCK, MOST_SNAPSHOTS};
use crate::origins::{AFTER_REVERT, AT_END};
use crate::pair::Pair;
use crate::table::Table;

/// The list of a seed.
pub fn one(seed: u64, table: &mut Table) -> Result<(), String> {
    let (mut pair, mut maker, big) = started(seed, true);
    let (sizes, length) = (maker.shape.words(), maker.shape.length);
    let named = |k: u64, ask: &Ask, area: usize, reason: String| {
        format!(
            "{sizes}: call {k}, {} on {area} bytes: {reason}",
            ask.words()
        )
    };

    // Some calls on the card as it was.
    let early = match maker.rng.below(4) {
        0 => maker.rng.between(1, 6),
        _ => 0,
    };
    for k in 0..length {
        if big && k == early + 1 {
            fill(&mut maker, &mut pair, table)
                .map_err(|reason| format!("{sizes}: the filling: {reason}"))?;
        }
        let first = k == early;
        let ask = match first {
            true => maker.first_ream(),
            false => maker.next(pair.own.part()),
        };
        let area = match first {
            true => pair.own.length(),
            false => maker.area_length(&pair.own),
        };
        let (answer, _) = pair
            .call(area, &ask, table)
            .map_err(|reason| named(k, &ask, area, reason))?;
        maker.after(&ask, answer.0);
        if matches!(ask, Ask::Revert { .. }) && answer.0 == 0 {
            pair.beside_origins(&mut maker.rng, &maker.hot, AFTER_REVERT, table)
                .map_err(|reason| format!("{sizes}: after call {k}: {reason}"))?;
        }
    }
    pair.beside_origins(&mut maker.rng, &maker.hot, AT_END, table)
        .map_err(|reason| format!("{sizes}: at the end: {reason}"))
}

/// Fills a large card with writes and snaps; all bytes are compared at the end.
fn fill(maker: &mut Maker, pair: &mut Pair, table: &mut Table) -> Result<(), String> {
    let area = pair.own.length();
    let volume = u64::from(maker.shape.volume);
    let blocks = maker.shape.blocks as u64;
    let snaps = *maker.rng.pick(&[0, 5, 5, 20, MOST_SNAPSHOTS as u64]);
    let writes = match maker.rng.below(2) {
        0 => blocks / (snaps + 1) + 1,
        _ => maker.rng.between(1, blocks / (snaps + 1)),
    };
    for k in 0..=snaps {
        let from = maker.rng.below(volume);
        for step in 0..writes {
            let block = ((from + step) % volume) as u32;
            let bytes = vec![maker.rng.below(256) as u8; BLOCK];
            let bytes = Lent::new(&mut maker.rng, &bytes, 0);
            let ask = Ask::Write { block, bytes };
            let (answer, _) = pair
                .answers(area, &ask, table)
                .map_err(|reason| format!("round {k}, {}: {reason}", ask.words()))?;
            maker.after(&ask, answer.0);
            if answer.0 != 0 {
                return pair.compare();
            }
        }
        if k < snaps {
            let mut name = random_name(&mut maker.rng);
            while maker.names.contains(&name) {
                name = random_name(&mut maker.rng);
            }
            let name = Lent::new(&mut maker.rng, &name, 0);
            let ask = Ask::Snap { name };
            let (answer, _) = pair
                .answers(area, &ask, table)
                .map_err(|reason| format!("round {k}, {}: {reason}", ask.words()))?;
            maker.after(&ask, answer.0);
        }
    }
    pair.compare()
}
