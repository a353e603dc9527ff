//! Memory that is lent to a call, with bytes before and after it that no call may touch.

use crate::rng::Rng;

#[derive(Clone, PartialEq, Eq)]
pub struct Lent {
    whole: Vec<u8>,
    from: usize,
    length: usize,
}

/// Random bytes.
pub fn noise(rng: &mut Rng, length: usize) -> Vec<u8> {
    let mut bytes = Vec::with_capacity(length + 8);
    while bytes.len() < length {
        bytes.extend_from_slice(&rng.bits().to_le_bytes());
    }
    bytes.truncate(length);
    bytes
}

impl Lent {
    /// The bytes with up to 15 bytes before them and up to `after` behind them. Half of all
    /// have none, so that a memory checker sees a step outside.
    pub fn new(rng: &mut Rng, bytes: &[u8], after: u64) -> Lent {
        let (before, behind) = match rng.below(4) {
            0 => (0, 0),
            1 => (rng.below(16), 0),
            2 => (rng.below(16), rng.between(0, after)),
            _ => (rng.below(16), after),
        };
        let from = before as usize;
        let mut whole = Vec::with_capacity(from + bytes.len() + behind as usize);
        whole.extend_from_slice(&noise(rng, from));
        whole.extend_from_slice(bytes);
        whole.extend_from_slice(&noise(rng, behind as usize));
        Lent {
            whole,
            from,
            length: bytes.len(),
        }
    }

    pub fn length(&self) -> usize {
        self.length
    }

    /// The greatest length that can be lent.
    pub fn most(&self) -> usize {
        self.whole.len() - self.from
    }

    pub fn part(&self) -> &[u8] {
        &self.whole[self.from..self.from + self.length]
    }

    pub fn part_mut(&mut self) -> &mut [u8] {
        &mut self.whole[self.from..self.from + self.length]
    }

    /// The first so many bytes, perhaps more than the part has.
    pub fn lend(&mut self, length: usize) -> &mut [u8] {
        &mut self.whole[self.from..self.from + length]
    }

    /// The first byte that differs, counted from the start of the part.
    pub fn difference(&self, other: &Lent) -> Option<i64> {
        if self.whole == other.whole {
            return None;
        }
        let at = (0..self.whole.len()).find(|at| self.whole[*at] != other.whole[*at]);
        at.map(|at| at as i64 - self.from as i64)
    }
}
