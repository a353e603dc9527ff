//! Rollback and the forgotten calls, by the library: for each accepted revert the shorter
//! list is run from the same start on a card of its own, and right after the revert and
//! after each later call beta, the bytes below beta and all that is said are compared. The
//! run itself stands beside the own store and the origins. Cards are of both revisions, and some
//! lists start from a card in use.

use crate::boundary::{by_library, listed_beta, Ask};
use crate::lists::started;
use crate::numbers::BLOCK;
use crate::origins::{AFTER_REVERT, AT_END};
use crate::pair::Pair;
use crate::rng::Rng;
use crate::store::Name;
use crate::table::Table;

/// How many shorter lists are followed at once.
const MOST_SHORTER: usize = 12;

/// The list of a seed.
pub fn one(seed: u64, table: &mut Table) -> Result<(), String> {
    let (mut pair, mut maker, _) = started(seed, false);
    let (sizes, length) = (maker.shape.words(), maker.shape.length);
    let area = pair.own.length();
    maker.steady = true;
    let ream = maker.first_ream();
    let (answer, _) = pair
        .call(area, &ream, table)
        .map_err(|reason| format!("{sizes}: the first ream: {reason}"))?;
    if answer.0 != 0 {
        return Err(format!("{sizes}: the first ream: {answer:?}"));
    }
    let mut run = Run {
        revision: maker.shape.revision as usize,
        start: pair.library.part().to_vec(),
        found: Vec::new(),
        pair,
        calls: Vec::new(),
        snaps: Vec::new(),
        reverts: Vec::new(),
        shorter: Vec::new(),
    };
    // Some calls before the list starts.
    let early = match maker.rng.below(4) {
        0 => maker.rng.below(length),
        _ => 0,
    };
    for k in 0..length {
        if k == early {
            run.begin(&maker.names);
        }
        let ask = maker.next(run.pair.own.part());
        let number = run
            .step(&ask, &mut maker.rng, table)
            .map_err(|reason| format!("{sizes}: call {k}, {}: {reason}", ask.words()))?;
        maker.after(&ask, number);
        if matches!(ask, Ask::Revert { .. }) && number == 0 {
            run.pair
                .beside_origins(&mut maker.rng, &maker.hot, AFTER_REVERT, table)
                .map_err(|reason| format!("{sizes}: after call {k}: {reason}"))?;
        }
        run.calls.push(ask);
    }
    run.pair
        .beside_origins(&mut maker.rng, &maker.hot, AT_END, table)
        .map_err(|reason| format!("{sizes}: at the end: {reason}"))
}

struct Run {
    revision: usize,
    /// The card that the list starts from: as the accepted ream left it, or in use.
    start: Vec<u8>,
    /// The visits of that card.
    found: Vec<Name>,
    pair: Pair,
    calls: Vec<Ask>,
    /// Accepted snaps: the name and the place in the list.
    snaps: Vec<(Vec<u8>, usize)>,
    /// Accepted reverts: the name and the place of the visit's snap, if the list has it.
    reverts: Vec<(Vec<u8>, Option<usize>)>,
    /// The place of the revert and the card of its shorter list.
    shorter: Vec<(usize, Vec<u8>)>,
}

impl Run {
    /// Has the list start from the card as it is, with these visits.
    fn begin(&mut self, visits: &[Name]) {
        self.start = self.pair.library.part().to_vec();
        self.found = visits.to_vec();
        self.calls.clear();
        self.snaps.clear();
        self.reverts.clear();
        self.shorter.clear();
    }

    /// One call on all cards.
    fn step(&mut self, ask: &Ask, rng: &mut Rng, table: &mut Table) -> Result<u32, String> {
        let area = self.pair.own.length();
        let (answer, lent) = self.pair.call(area, ask, table)?;
        for (revert, card) in &mut self.shorter {
            let mut other_lent = ask.clone();
            let other = by_library(card, &mut other_lent);
            let which = format!("the shorter list of revert {revert}");
            if other != answer {
                return Err(format!("{answer:?}, but {other:?} in {which}"));
            }
            if other_lent != lent {
                return Err(format!("lent memory differs in {which}"));
            }
            same_below_beta(self.pair.library.part_mut(), card)
                .map_err(|reason| format!("{which}: {reason}"))?;
            table.compared += 1;
        }
        match ask {
            Ask::Snap { name } if answer.0 == 0 => {
                self.snaps.push((name.part().to_vec(), self.calls.len()));
            }
            Ask::Revert { name } if answer.0 == 0 => self.reverted(ask, name.part(), rng, table)?,
            _ => {}
        }
        Ok(answer.0)
    }

    /// Starts the shorter list of an accepted revert on a card of its own. The forgotten calls
    /// begin with the visit's snap on revision 0 and after it on revision 1. They are all calls
    /// before the revert, which itself stays, where the visit is one of the starting card.
    fn reverted(
        &mut self,
        ask: &Ask,
        name: &[u8],
        rng: &mut Rng,
        table: &mut Table,
    ) -> Result<(), String> {
        let mut card = self.start.clone();
        let snap = self.snaps.iter().rfind(|pair| pair.0 == name);
        let snap = snap.map(|pair| pair.1);
        match snap {
            Some(snap) => {
                let end = if self.revision == 1 { snap + 1 } else { snap };
                for earlier in &self.calls[..end] {
                    by_library(&mut card, &mut earlier.clone());
                }
            }
            None if self.found.iter().any(|visit| visit[..] == *name) => {
                let other = by_library(&mut card, &mut ask.clone());
                if other != (0, 0) {
                    return Err(format!("{other:?} on the starting card"));
                }
            }
            None => return Err("no accepted snap of that name".to_string()),
        }
        same_below_beta(self.pair.library.part_mut(), &mut card)
            .map_err(|reason| format!("right after the revert: {reason}"))?;
        let visit = (name.to_vec(), snap);
        let again = self.reverts.contains(&visit);
        table.reverts.add(self.revision, again, snap.is_none());
        table.compared += 1;
        self.reverts.push(visit);
        if self.shorter.len() == MOST_SHORTER {
            self.shorter
                .swap_remove(rng.below(MOST_SHORTER as u64) as usize);
        }
        self.shorter.push((self.calls.len(), card));
        Ok(())
    }
}

/// Compares beta and every card byte below it.
fn same_below_beta(one: &mut [u8], other: &mut [u8]) -> Result<(), String> {
    let betas = (listed_beta(one)?, listed_beta(other)?);
    if betas.0 != betas.1 {
        return Err(format!("beta {} and {}", betas.0, betas.1));
    }
    let end = betas.0 * BLOCK;
    if one[..end] == other[..end] {
        return Ok(());
    }
    let at = (0..end).find(|at| one[*at] != other[*at]).unwrap_or(end);
    Err(format!("byte {at} of the card differs"))
}
