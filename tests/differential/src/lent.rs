//! Lent memory: bytes with guard bytes on both sides.

use reference::generate::Rng;

/// Bytes on each side of a lent memory that must stay as they are.
const GUARD: usize = 64;
/// The start of a memory is moved by less than so many bytes, so that it is aligned to no more than it has
/// to be.
const SHIFTS: usize = 16;

/// Some bytes between two guards.
#[derive(Clone)]
pub struct Lent {
    whole: Vec<u8>,
    start: usize,
    length: usize,
    salt: u8,
}

impl Lent {
    /// A memory that holds these bytes.
    pub fn holding(rng: &mut Rng, bytes: &[u8], step: usize) -> Lent {
        let mut lent = Lent::filled(rng, bytes.len(), step);
        lent.bytes_mut().copy_from_slice(bytes);
        lent
    }

    /// A memory of some length, with arbitrary bytes. It is moved by whole steps; a vector of so many bytes
    /// begins at a multiple of 16, and a call that needs an aligned memory looks whether it has one.
    pub fn filled(rng: &mut Rng, length: usize, step: usize) -> Lent {
        let start = GUARD + rng.below(SHIFTS) / step * step;
        let salt = rng.draw() as u8;
        let whole = (0..start + length + GUARD)
            .map(|place| arbitrary(place, salt))
            .collect();
        Lent {
            whole,
            start,
            length,
            salt,
        }
    }

    pub fn bytes(&self) -> &[u8] {
        &self.whole[self.start..self.start + self.length]
    }

    pub fn bytes_mut(&mut self) -> &mut [u8] {
        &mut self.whole[self.start..self.start + self.length]
    }

    /// Whether every guard byte is as it was at first.
    pub fn guards_hold(&self) -> bool {
        let end = self.start + self.length;
        let holds = |place: usize| self.whole[place] == arbitrary(place, self.salt);
        (0..self.start).all(holds) && (end..self.whole.len()).all(holds)
    }
}

/// A byte that depends on its place, so that moved bytes are noticed too.
fn arbitrary(place: usize, salt: u8) -> u8 {
    (place as u8).wrapping_mul(167) ^ (place >> 8) as u8 ^ salt
}
