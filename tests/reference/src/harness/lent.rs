//! Lent memory with guard bytes on both sides.

use super::Random;

pub const GUARD: usize = 64;

#[derive(Clone)]
pub struct Lent {
    bytes: Vec<u8>,
}

impl Lent {
    /// Lent memory that holds the content between random guards.
    pub fn of(content: &[u8], random: &mut Random) -> Lent {
        let mut lent = Lent::noise(content.len(), random);
        lent.part().copy_from_slice(content);
        lent
    }

    /// Lent memory of that length, random all through.
    pub fn noise(length: usize, random: &mut Random) -> Lent {
        let bytes = (0..length + 2 * GUARD).map(|_| random.byte()).collect();
        Lent { bytes }
    }

    /// The part that is lent to a call.
    pub fn part(&mut self) -> &mut [u8] {
        let end = self.bytes.len() - GUARD;
        &mut self.bytes[GUARD..end]
    }

    /// The lent part and its guards.
    pub fn whole(&self) -> &[u8] {
        &self.bytes
    }
}
