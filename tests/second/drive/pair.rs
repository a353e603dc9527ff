//! Two cards, the library's and the own store's, and a call on both. Beside them stand the origins
//! since the last format, and beside a span the library's calls of whole blocks.

use crate::blockwise;
use crate::boundary::{by_library, by_own, Answer, Ask};
use crate::call::{Call, Said};
use crate::counts::Dated;
use crate::lent::Lent;
use crate::numbers::{BLOCK, MOST_DESCRIPTORS};
use crate::origins::Origins;
use crate::rng::Rng;
use crate::store::{self, padded, shown, Name, Target, NOTHING};
use crate::table::Table;

/// The longest card that is copied for the calls of whole blocks.
const MOST_COPIED: usize = 8_000 * BLOCK;

#[derive(Clone)]
pub struct Pair {
    pub library: Lent,
    pub own: Lent,
    /// None where the card was not made by these calls since a format.
    origins: Option<Origins>,
}

impl Pair {
    pub fn new(card: Lent) -> Pair {
        Pair {
            library: card.clone(),
            own: card,
            origins: None,
        }
    }

    /// Changes both cards by other means than calls.
    pub fn damage(&mut self, change: impl Fn(&mut [u8])) {
        change(self.library.part_mut());
        change(self.own.part_mut());
        self.origins = None;
    }

    /// Carries the call out on the first `length` bytes of both cards and compares answer
    /// and lent memory. Gives the answer and the call with its memory at exit.
    pub fn answers(
        &mut self,
        length: usize,
        ask: &Ask,
        table: &mut Table,
    ) -> Result<(Answer, Ask), String> {
        let mut lent = ask.clone();
        let answer = by_library(self.library.lend(length), &mut lent);
        let mut own_lent = ask.clone();
        let own = by_own(self.own.lend(length), &mut own_lent);
        table.count(ask.call().kind() as usize, answer.0)?;
        if answer != own {
            return Err(format!(
                "the library answers {answer:?}, the own store {own:?}"
            ));
        }
        if lent.visit() != own_lent.visit() {
            let names = (shown(&lent.visit()), shown(&own_lent.visit()));
            return Err(format!(
                "the library gives the name {}, the own store {}",
                names.0, names.1
            ));
        }
        if lent != own_lent {
            return Err(format!("lent memory differs after {answer:?}"));
        }
        if answer.0 == 0 {
            self.accepted(length, &ask.call(), lent.visit(), table)?;
        }
        Ok((answer, lent))
    }

    /// Takes note of an accepted call: the origins follow it, and a visit gave their name.
    fn accepted(
        &mut self,
        length: usize,
        call: &Call,
        given: Name,
        table: &mut Table,
    ) -> Result<(), String> {
        table.spans.add(call);
        if let Call::Visit { target, .. } = call {
            let (snapshot, own) = match target {
                Target::Active => (false, self.active_name(length)),
                Target::Snapshot(text) => (true, padded(text)),
            };
            table.visits.add(snapshot, Dated::of(&given, &own));
        }
        match (call, &mut self.origins) {
            (
                Call::Ream {
                    volume,
                    revision,
                    name,
                    ..
                },
                origins,
            ) => *origins = Some(Origins::new(name, *volume, *revision)),
            (Call::Visit { target, logical }, Some(origins)) => {
                let expected = origins.name(target, *logical)?;
                if given != expected {
                    let names = (shown(&given), shown(&expected));
                    return Err(format!(
                        "the name {}, and {} by the origins",
                        names.0, names.1
                    ));
                }
                table.names += 1;
            }
            (_, Some(origins)) => origins.step(call)?,
            (_, None) => {}
        }
        Ok(())
    }

    /// The active descriptor's name.
    fn active_name(&mut self, length: usize) -> Name {
        let mut records = [NOTHING; MOST_DESCRIPTORS];
        let count = store::list(self.own.lend(length), &mut records).1;
        records[count - 1].name
    }

    /// Holds about `most` visits against the origins, mostly of the blocks given.
    pub fn beside_origins(
        &mut self,
        rng: &mut Rng,
        used: &[u32],
        most: u64,
        table: &mut Table,
    ) -> Result<(), String> {
        let used: Vec<u64> = used.iter().map(|block| u64::from(*block)).collect();
        let visits = match &self.origins {
            Some(origins) => origins.visits(rng, &used, most),
            None => Vec::new(),
        };
        for (target, logical) in visits {
            let ask = Ask::of(&Call::Visit { target, logical }, rng);
            self.answers(self.own.length(), &ask, table)
                .map_err(|reason| format!("{}: {reason}", ask.words()))?;
        }
        self.compare()
    }

    /// Compares all bytes of both cards and around them.
    pub fn compare(&self) -> Result<(), String> {
        match self.library.difference(&self.own) {
            None => Ok(()),
            Some(at) => Err(format!("byte {at} of the card differs")),
        }
    }

    /// The call, with both comparisons; a span on a card that is not too long is also held against
    /// the library's calls of whole blocks, on a card of their own.
    pub fn call(
        &mut self,
        length: usize,
        ask: &Ask,
        table: &mut Table,
    ) -> Result<(Answer, Ask), String> {
        let span = matches!(ask, Ask::ReadSpan { .. } | Ask::WriteSpan { .. });
        let before = match span && length <= MOST_COPIED {
            true => Some(self.library.lend(length).to_vec()),
            false => None,
        };
        let (answer, lent) = self.answers(length, ask, table)?;
        self.compare()?;
        if let Some(before) = before {
            let (call, said) = (ask.call(), lent.said(answer));
            let after = self.library.lend(length);
            let need = blockwise::hold(&mut said_by_library, &call, &said, before, after)?;
            if let Some(need) = need {
                table.spans.add_need(&call, &need);
            }
        }
        Ok((answer, lent))
    }
}

/// What the library says of a call.
fn said_by_library(card: &mut [u8], call: &Call) -> Said {
    let mut ask = Ask::of(call, &mut Rng::new(0));
    let answer = by_library(card, &mut ask);
    ask.said(answer)
}
