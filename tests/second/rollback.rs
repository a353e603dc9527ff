//! Rollback and the forgotten calls, on the own store: for each accepted revert of a random list of
//! calls the shorter list is run from the same start, and the two runs are compared right after it
//! and after each later call. Beside the run stand the ledger, the origins and the count of blocks,
//! so that agreement of two runs alone is not enough, and each span is held against calls of whole
//! blocks. Cards are of both revisions, and some lists start from a card in use.

use crate::blockwise;
use crate::call::{carry_out, Call, Said, KINDS};
use crate::counts::{all_met, Counts, Dated, Reverts, Spans, Visits, ENOUGH};
use crate::extent::{self, touched};
use crate::ledger::{Ledger, Word};
use crate::numbers::*;
use crate::origins::{Origins, AFTER_REVERT, AT_END};
use crate::rng::Rng;
use crate::room::Room;
use crate::store::{self, Logical, Name, Record, Target, NOTHING};
use crate::values::same;
use crate::Count;
use std::ops::Range;

/// The weight of snaps in a list that is to meet 13.
const MANY_SNAPS: u64 = 4_000;

/// For each kind of call the numbers that can arise: the card is always the whole one and passes
/// check, and every ream of a list is refused.
const CAN_ARISE: [&[u64]; KINDS.len()] = [
    &[2, 3, 4, 5, 17],
    &[0, 4, 7, 8, 9],
    &[0, 8, 9, 11],
    &[0, 4, 11, 12, 13],
    &[0, 4, 7],
    &[0, 14],
    &[0],
    &[0, 4, 7, 8],
    &[0, 4, 7, 16],
    &[0, 11, 16],
];

/// What the lists held, by kind of call and number.
#[derive(Default)]
struct Summary {
    answers: Counts,
    reverts: Reverts,
    compared: u64,
    visits: Visits,
    /// How many names of visits were held against the origins.
    names: u64,
    spans: Spans,
}

/// Runs the lists of `count` seeds.
pub fn run(seed: u64, count: u64) -> Count {
    let mut sum = Count::default();
    let mut summary = Summary::default();
    for k in 0..count {
        let this = seed.wrapping_add(k);
        sum.case(&format!("seed {this}"), Run::new(this).go(&mut summary));
    }
    summary.answers.print("call", &KINDS, &ANSWERS);
    summary.reverts.print(summary.compared);
    let met = all_met("reverts", &summary.reverts.missing(), count, ENOUGH);
    sum.case("reverts of each kind", met);
    summary.visits.print();
    println!("{} names compared with the origins", summary.names);
    let met = all_met("visits", &summary.visits.missing(), count, ENOUGH);
    sum.case("visits of each kind", met);
    summary.spans.print();
    let met = all_met("spans", &summary.spans.missing(), count, ENOUGH);
    sum.case("spans of each kind", met);
    let missing = summary.answers.missing(&KINDS, &CAN_ARISE);
    let met = all_met("answers", &missing, count, ENOUGH);
    sum.case("answers of each kind", met);
    let strange = summary.answers.strange(&CAN_ARISE).count();
    same(&mut sum, "answers that cannot arise", strange, 0);
    sum
}

/// One list of calls, made as it runs.
struct Run {
    rng: Rng,
    layout: u64,
    volume: u64,
    revision: u64,
    blocks: u64,
    /// How many calls are made.
    length: u64,
    /// How many of them are made before the list starts.
    early: u64,
    snap_weight: u64,
    pool: Vec<Vec<u8>>,
    hot: Vec<u64>,
    /// The card that the list starts from: as the accepted ream left it, or in use.
    start: Vec<u8>,
    /// The visits of that card.
    found: Vec<Vec<u8>>,
    card: Vec<u8>,
    ledger: Ledger,
    origins: Origins,
    room: Room,
    calls: Vec<Call>,
    /// Accepted snaps: the name and the place in the list.
    snaps: Vec<(Vec<u8>, usize)>,
    /// Accepted reverts: the name and the place of the visit's snap, if the list has it.
    reverts: Vec<(Vec<u8>, Option<usize>)>,
    /// The cards of the shorter lists, one for each accepted revert.
    shorter: Vec<Vec<u8>>,
    full: bool,
}

impl Run {
    fn new(seed: u64) -> Run {
        let mut rng = Rng::new(seed);
        let many_snaps = rng.once_in(25);
        let layout = if many_snaps { 2 } else { rng.between(1, 2) };
        let blocks = match rng.below(4) {
            _ if many_snaps => rng.between(330, 600),
            0 => rng.between(2, 12),
            1 => rng.between(2, 60),
            _ => rng.between(2, 600),
        };
        let most = if layout == 2 {
            MOST_VOLUME
        } else {
            MOST_VOLUME.min(TABLE_ENTRIES * (blocks - 1))
        };
        let wide = !many_snaps && rng.once_in(30);
        let volume = match rng.below(4) {
            _ if wide => most - rng.below(2).min(most - 1),
            0 => rng.between(1, 20),
            1 => *rng.pick(&[1, 127, 128, 129, 255, 256, 257, 384]),
            _ => rng.between(1, 700),
        };
        let volume = volume.min(most);
        let revision = rng.below(2);
        let length = match rng.below(4) {
            _ if many_snaps => rng.between(340, 420),
            _ if wide => rng.between(10, 40),
            0 => rng.between(5, 60),
            _ => rng.between(60, 240),
        };
        let early = match rng.below(4) {
            0 => rng.below(length),
            _ => 0,
        };
        let names = if many_snaps { 500 } else { rng.between(2, 30) };
        let pool: Vec<Vec<u8>> = (0..names).map(|k| format!("v{k}").into_bytes()).collect();
        let mut hot = Vec::new();
        for _ in 0..rng.between(2, 40) {
            let near = *rng.pick(&[8, 130, MOST_VOLUME]);
            hot.push(rng.below(volume.min(near)));
        }
        let card = started(&mut rng, layout, volume, revision, blocks);
        Run {
            layout,
            volume,
            revision,
            blocks,
            length,
            early,
            snap_weight: if many_snaps {
                MANY_SNAPS
            } else {
                rng.between(20, 200)
            },
            pool,
            hot,
            start: card.clone(),
            found: Vec::new(),
            card,
            ledger: Ledger::new(b"fs", volume, revision),
            origins: Origins::new(b"fs", volume, revision),
            room: Room::new(layout, volume, revision, blocks),
            calls: Vec::new(),
            snaps: Vec::new(),
            reverts: Vec::new(),
            shorter: Vec::new(),
            full: false,
            rng,
        }
    }

    /// Runs the whole list, or says what went wrong first.
    fn go(mut self, summary: &mut Summary) -> Result<(), String> {
        for k in 0..self.length {
            if k == self.early {
                self.begin();
            }
            let call = self.next_call();
            self.one(&call, summary).map_err(|reason| {
                let size = (self.layout, self.volume, self.revision, self.blocks);
                format!(
                    "layout, volume, revision, blocks {size:?}, call {k}, {}: {reason}",
                    short(&call)
                )
            })?;
            self.calls.push(call);
        }
        let end = store::check(&self.card);
        if end != store::ACCEPTED {
            return Err(format!("check at the end: {end:?}"));
        }
        self.beside_origins(AT_END, summary)
            .map_err(|reason| format!("at the end: {reason}"))
    }

    /// Has the list start from the card as it is.
    fn begin(&mut self) {
        self.start = self.card.clone();
        self.found = self.ledger.names();
        self.found.pop();
        self.calls.clear();
        self.snaps.clear();
        self.reverts.clear();
        self.shorter.clear();
    }

    /// Carries out one call on all cards and compares.
    fn one(&mut self, call: &Call, summary: &mut Summary) -> Result<(), String> {
        let before = self.card.clone();
        let said = carry_out(&mut self.card, call);
        summary
            .answers
            .add(call.kind() as usize, said.answer.number, 1);
        let accepted = said.answer == store::ACCEPTED;
        self.beside_ledger(call, &said, summary)?;
        let changes = match call {
            Call::Write { .. } | Call::Snap { .. } | Call::Revert { .. } => true,
            Call::WriteSpan { lent, .. } => !lent.is_empty(),
            _ => false,
        };
        if !(accepted && changes) && self.card != before {
            return Err("the card has changed".to_string());
        }
        let need = blockwise::hold(&mut carry_out, call, &said, before, &self.card)?;
        if let Some(need) = need {
            summary.spans.add_need(call, &need);
        }
        if accepted {
            summary.spans.add(call);
        }
        for (which, card) in self.shorter.iter_mut().enumerate() {
            let other = carry_out(card, call);
            if other != said {
                let answers = (said.answer, other.answer);
                return Err(format!(
                    "answers differ from those of shorter list {which}: {answers:?}"
                ));
            }
            same_below_beta(&self.card, card)
                .map_err(|reason| format!("shorter list {which}: {reason}"))?;
            summary.compared += 1;
        }
        match call {
            Call::Snap { name } if accepted => self.snaps.push((name.clone(), self.calls.len())),
            Call::Revert { name } if accepted => {
                self.reverted(call, name, summary)?;
                self.beside_origins(AFTER_REVERT, summary)?;
            }
            _ => {}
        }
        Ok(())
    }

    /// Holds about `most` visits against the origins.
    fn beside_origins(&mut self, most: u64, summary: &mut Summary) -> Result<(), String> {
        for (target, logical) in self.origins.visits(&mut self.rng, &self.hot, most) {
            let (answer, name) = store::visit(&self.card, &target, logical);
            let expected = self.expected_visit(&target, logical)?;
            let name = name.unwrap_or_default();
            if answer != store::ACCEPTED || name != expected {
                let names = (store::shown(&name), store::shown(&expected));
                return Err(format!(
                    "visit of {target:?}, {logical:?}: {answer:?}, {} and not {}",
                    names.0, names.1
                ));
            }
            summary.names += 1;
        }
        Ok(())
    }

    /// The name that an accepted visit gives by the origins, and by the count of blocks.
    fn expected_visit(&self, target: &Target, logical: Logical) -> Result<Name, String> {
        let name = self.origins.name(target, logical)?;
        let names = self.ledger.names();
        let volume = match target {
            Target::Active => names.len() - 1,
            Target::Snapshot(name) => self.ledger.position(name).ok_or("no such volume")?,
        };
        let region = self.room.written_in(volume, logical.0);
        let counted = region.map_or(Name::default(), |k| store::padded(&names[k]));
        match name == counted {
            true => Ok(name),
            false => Err("the origins and the count of blocks differ".to_string()),
        }
    }

    /// Starts the shorter list of an accepted revert on a card of its own. The forgotten calls
    /// begin with the visit's snap on revision 0 and after it on revision 1. They are all calls
    /// before the revert, which itself stays, where the visit is one of the starting card.
    fn reverted(&mut self, call: &Call, name: &[u8], summary: &mut Summary) -> Result<(), String> {
        let mut card = self.start.clone();
        let snap = self.snaps.iter().rfind(|pair| pair.0 == name);
        let snap = snap.map(|pair| pair.1);
        match snap {
            Some(snap) => {
                let end = if self.revision == 1 { snap + 1 } else { snap };
                for earlier in &self.calls[..end] {
                    carry_out(&mut card, earlier);
                }
            }
            None if self.found.iter().any(|visit| visit == name) => {
                let other = carry_out(&mut card, call).answer;
                if other != store::ACCEPTED {
                    return Err(format!("{other:?} on the starting card"));
                }
            }
            None => return Err("no accepted snap of that name".to_string()),
        }
        same_below_beta(&self.card, &card)
            .map_err(|reason| format!("right after the revert: {reason}"))?;
        let visit = (name.to_vec(), snap);
        let again = self.reverts.contains(&visit);
        let revision = self.revision as usize;
        summary.reverts.add(revision, again, snap.is_none());
        summary.compared += 1;
        self.reverts.push(visit);
        self.shorter.push(card);
        Ok(())
    }

    /// Holds what the store says against the ledger and the count of blocks.
    fn beside_ledger(
        &mut self,
        call: &Call,
        said: &Said,
        summary: &mut Summary,
    ) -> Result<(), String> {
        let blocks = self.written(call);
        let room = match call {
            Call::Snap { .. } => self.room.has_for_snap(),
            _ => self.room.has_for_writes(blocks.clone()),
        };
        let position = match call {
            Call::Revert { name } => self.ledger.position(name),
            _ => None,
        };
        let word = self.ledger.step(call, room);
        let (number, bytes) = match word {
            Word::Refused(number) => (number, None),
            Word::Done => (0, None),
            Word::Bytes(bytes) => (0, Some(bytes)),
            Word::Unknown => (refused_ream(call), None),
        };
        if said.answer.number != number || said.answer.place != 0 {
            return Err(format!("{:?} where the ledger says {number}", said.answer));
        }
        let mut records = Vec::new();
        let mut visit = Name::default();
        if said.block != bytes.unwrap_or(call.lent().0) {
            return Err("the lent bytes are not the ledger's".to_string());
        }
        match call {
            Call::Write { .. } | Call::WriteSpan { .. } => {
                self.full = number == 11;
                if number == 0 {
                    self.room.take_writes(blocks);
                }
            }
            Call::Snap { .. } => {
                self.full = number == 11;
                if number == 0 {
                    self.room.take_snap();
                }
            }
            Call::Revert { .. } => {
                if let Some(k) = position {
                    self.room.go_back(k);
                    self.full = false;
                }
            }
            Call::List { lent } => {
                records = lent.clone();
                if number == 0 {
                    for (k, record) in self.expected_records().into_iter().enumerate() {
                        records[k] = record;
                    }
                }
            }
            Call::Visit { target, logical } if number == 0 => {
                visit = self.expected_visit(target, *logical)?;
                let (snapshot, own) = match target {
                    Target::Active => (false, &b"fs"[..]),
                    Target::Snapshot(name) => (true, &name[..]),
                };
                let dated = Dated::of(&visit, &store::padded(own));
                summary.visits.add(snapshot, dated);
                summary.names += 1;
            }
            _ => {}
        }
        if said.records != records {
            return Err("the list is not the ledger's".to_string());
        }
        if said.visit != visit {
            let names = (store::shown(&said.visit), store::shown(&visit));
            return Err(format!("the name {} and not {}", names.0, names.1));
        }
        match number {
            0 => self.origins.step(call),
            _ => Ok(()),
        }
    }

    /// The blocks that a call writes; none where they are not blocks of the volume.
    fn written(&self, call: &Call) -> Range<u64> {
        let end = self.volume * BLOCK as u64;
        match call {
            Call::Write { logical, .. } if logical.0 < self.volume => logical.0..logical.0 + 1,
            Call::WriteSpan { offset, lent }
                if *offset <= end && lent.len() as u64 <= end - *offset =>
            {
                touched(*offset, lent.len())
            }
            _ => 0..0,
        }
    }

    /// The records by the ledger's names and the count of blocks.
    fn expected_records(&self) -> Vec<Record> {
        let marks = self.room.marks();
        let pairs = self.ledger.names().into_iter().zip(marks);
        let mut records = Vec::new();
        for (text, (alpha, beta, next)) in pairs {
            let name = store::padded(&text);
            records.push(Record {
                name,
                alpha,
                beta,
                next,
            });
        }
        records
    }

    /// A random call, most often one that is accepted.
    fn next_call(&mut self) -> Call {
        let snapshots = self.ledger.names().len() - 1;
        // On revision 1 all snapshots may stay.
        let most = self.revision == 1 && snapshots == MOST_SNAPSHOTS;
        if self.full && snapshots > 0 && self.rng.once_in(3) || most && self.rng.once_in(20) {
            return Call::Revert {
                name: self.name_to_revert(),
            };
        }
        let snap = self.snap_weight;
        match self.rng.below(1_000 + snap) {
            0..=359 => {
                let length = self.block_length();
                Call::Write {
                    logical: self.logical(),
                    lent: self.content(length),
                }
            }
            360..=449 => {
                let (offset, length) = self.extent();
                Call::WriteSpan {
                    offset,
                    lent: self.content(length),
                }
            }
            450..=539 => {
                let length = self.block_length();
                Call::Read {
                    target: self.target(),
                    logical: self.logical(),
                    lent: unread(length),
                }
            }
            540..=609 => {
                let (offset, length) = self.extent();
                Call::ReadSpan {
                    target: self.target(),
                    offset,
                    lent: unread(length),
                }
            }
            610..=729 => Call::Visit {
                target: self.target(),
                logical: self.logical(),
            },
            730..=799 => Call::List {
                lent: self.lent_list(),
            },
            800..=839 => Call::Check,
            840..=859 => self.bad_ream(),
            860..=869 => Call::Revert {
                name: self.name_to_revert(),
            },
            870..=899 if snap < MANY_SNAPS => Call::Revert {
                name: self.name_to_revert(),
            },
            _ => Call::Snap {
                name: self.fresh_name(),
            },
        }
    }

    fn target(&mut self) -> Target {
        match self.rng.once_in(2) {
            true => Target::Active,
            false => Target::Snapshot(self.old_name()),
        }
    }

    fn logical(&mut self) -> Logical {
        Logical(match self.rng.below(30) {
            0 => self.volume,
            1 => *self
                .rng
                .pick(&[65_535, MOST_VOLUME, self.volume + 1, 1 << 32, u64::MAX]),
            2..=4 => self.rng.below(self.volume),
            5 => self.volume - 1,
            _ => *self.rng.pick(&self.hot),
        })
    }

    /// The offset and the length of a span.
    fn extent(&mut self) -> (u64, usize) {
        let used = *self.rng.pick(&self.hot);
        extent::random(&mut self.rng, self.volume, used, self.room.free())
    }

    fn block_length(&mut self) -> usize {
        match self.rng.below(40) {
            0 => *self.rng.pick(&[0, 1, 100, 511, 513, 1_024]),
            _ => BLOCK,
        }
    }

    /// What is written: also bytes that would do harm if they were taken for entries.
    fn content(&mut self, length: usize) -> Vec<u8> {
        match self.rng.below(5) {
            0 => vec![self.rng.below(256) as u8; length],
            1 => vec![0; length],
            2 => (0..length).map(|_| self.rng.below(256) as u8).collect(),
            3 if length == BLOCK => self.card[..BLOCK].to_vec(),
            _ => {
                let mut bytes = Vec::new();
                while bytes.len() < length {
                    let entry = self.rng.below(self.blocks) as u32;
                    bytes.extend_from_slice(&entry.to_le_bytes());
                }
                bytes.truncate(length);
                bytes
            }
        }
    }

    /// A list of any length with some content; mostly long enough.
    fn lent_list(&mut self) -> Vec<Record> {
        let names = self.ledger.names().len() as u64;
        let length = match self.rng.below(6) {
            0 => names,
            1 => names - 1,
            2 => self.rng.below(names + 3),
            _ => MOST_DESCRIPTORS as u64,
        };
        let mut lent = vec![NOTHING; length as usize];
        for record in &mut lent {
            record.alpha = self.rng.below(1_000);
            record.name[0] = self.rng.below(256) as u8;
        }
        lent
    }

    /// A ream that is refused, for one reason or for two.
    fn bad_ream(&mut self) -> Call {
        let (mut layout, mut volume) = (self.layout, self.volume);
        let mut revision = self.rng.below(2);
        let mut name = b"x".to_vec();
        let too_wide = TABLE_ENTRIES * self.blocks;
        match self.rng.below(5) {
            0 => layout = *self.rng.pick(&[0, 3, 258, 1 << 32]),
            1 => volume = *self.rng.pick(&[0, MOST_VOLUME + 1, 1 << 40]),
            2 if too_wide <= MOST_VOLUME => (layout, volume) = (1, too_wide),
            3 => revision = self.bad_revision(),
            _ => name = b"X".to_vec(),
        }
        match self.rng.below(8) {
            0 => volume = 0,
            1 => revision = self.bad_revision(),
            2 => name = b"X".to_vec(),
            _ => {}
        }
        Call::Ream {
            layout,
            volume,
            revision,
            name,
        }
    }

    fn bad_revision(&mut self) -> u64 {
        match self.rng.below(4) {
            0 => (1 << 32) + self.rng.below(2),
            _ => u64::from(*self.rng.pick(&NO_REVISIONS)),
        }
    }

    /// The name of a revert: mostly a snapshot's, and on revision 1 often that of the last one.
    fn name_to_revert(&mut self) -> Vec<u8> {
        let last = self.reverts.last().map(|visit| visit.0.clone());
        match last {
            Some(name) if self.revision == 1 && self.rng.once_in(3) => name,
            _ => self.old_name(),
        }
    }

    /// Mostly the name of a snapshot.
    fn old_name(&mut self) -> Vec<u8> {
        let names = self.ledger.names();
        let frozen = &names[..names.len() - 1];
        match self.rng.below(30) {
            0 => b"fs".to_vec(),
            1 => self
                .rng
                .pick(&[&b""[..], b"V1", b"v1\0", b"abcdefghijklmnopq"])
                .to_vec(),
            2 => self.rng.pick(&self.pool).clone(),
            _ if frozen.is_empty() => self.rng.pick(&self.pool).clone(),
            // Late ones more often, so that reverts do not empty the card each time.
            _ if self.rng.once_in(2) => {
                let near = (frozen.len() as u64).min(3);
                frozen[frozen.len() - 1 - self.rng.below(near) as usize].clone()
            }
            _ => self.rng.pick(frozen).clone(),
        }
    }

    /// Mostly a name that is not in use.
    fn fresh_name(&mut self) -> Vec<u8> {
        let used = self.ledger.names();
        match self.rng.below(30) {
            0 => self.rng.pick(&used).clone(),
            1 => self
                .rng
                .pick(&[&b""[..], b"V1", b"v1\0", b"abcdefghijklmnopq"])
                .to_vec(),
            2 => self.rng.pick(&self.pool).clone(),
            _ => {
                let free: Vec<&Vec<u8>> = self
                    .pool
                    .iter()
                    .filter(|name| !used.contains(name))
                    .collect();
                match free.is_empty() {
                    true => format!("w{}", self.calls.len()).into_bytes(),
                    false => (*self.rng.pick(&free)).clone(),
                }
            }
        }
    }
}

/// What lent memory holds before a read.
fn unread(length: usize) -> Vec<u8> {
    (0..length).map(|k| (k * 7) as u8).collect()
}

/// A card as an accepted ream leaves it, whatever the other blocks hold.
fn started(rng: &mut Rng, layout: u64, volume: u64, revision: u64, blocks: u64) -> Vec<u8> {
    let length = blocks as usize * BLOCK;
    let mut card = match rng.below(4) {
        0 => vec![0; length],
        1 => vec![0xff; length],
        2 => (0..length).map(|_| rng.below(256) as u8).collect(),
        _ => {
            // A card that was in use before.
            let mut card = vec![0; length];
            store::ream(&mut card, 2, 300, rng.below(2), b"old");
            for k in 0..blocks {
                let logical = Logical(rng.below(300));
                store::write(&mut card, logical, &[k as u8; BLOCK]);
                if rng.once_in(6) {
                    store::snap(&mut card, format!("v{k}").as_bytes());
                }
            }
            card
        }
    };
    store::ream(&mut card, layout, volume, revision, b"fs");
    card
}

/// The number of a ream that is always refused, by its arguments.
fn refused_ream(call: &Call) -> u64 {
    match call {
        Call::Ream { layout, .. } if *layout == 0 || *layout > 2 => 2,
        Call::Ream { volume, .. } if *volume == 0 || *volume > MOST_VOLUME => 3,
        Call::Ream { revision, .. } if *revision > 1 => 17,
        Call::Ream { name, .. } if name != b"x" => 4,
        _ => 5,
    }
}

/// The active descriptor's beta.
fn beta_of(card: &[u8]) -> Result<u64, String> {
    let mut records = [NOTHING; MOST_DESCRIPTORS];
    let (answer, count) = store::list(card, &mut records);
    if answer != store::ACCEPTED {
        return Err(format!("no chain: {answer:?}"));
    }
    Ok(records[count - 1].beta)
}

/// Compares beta and every card byte below it.
fn same_below_beta(one: &[u8], other: &[u8]) -> Result<(), String> {
    let betas = (beta_of(one)?, beta_of(other)?);
    if betas.0 != betas.1 {
        return Err(format!("beta {} and {}", betas.0, betas.1));
    }
    let end = betas.0 as usize * BLOCK;
    if one[..end] == other[..end] {
        return Ok(());
    }
    let at = (0..end).find(|at| one[*at] != other[*at]).unwrap_or(end);
    Err(format!(
        "byte {} of block {} differs",
        at % BLOCK,
        at / BLOCK
    ))
}

/// A call in a few words.
fn short(call: &Call) -> String {
    let text = |name: &[u8]| String::from_utf8_lossy(name).to_string();
    match call {
        Call::Ream { .. } => "ream".to_string(),
        Call::Read { logical, .. } => format!("read {}", logical.0),
        Call::Write { logical, .. } => format!("write {}", logical.0),
        Call::Snap { name } => format!("snap {}", text(name)),
        Call::Revert { name } => format!("revert {}", text(name)),
        Call::List { .. } => "list".to_string(),
        Call::Check => "check".to_string(),
        Call::Visit { logical, .. } => format!("visit {}", logical.0),
        Call::ReadSpan { offset, lent, .. } => {
            format!("read span {offset} length {}", lent.len())
        }
        Call::WriteSpan { offset, lent } => format!("write span {offset} length {}", lent.len()),
    }
}
