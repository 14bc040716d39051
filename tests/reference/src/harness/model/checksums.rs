//! Checksums of units: XXH64, written from its description, and what it is taken of.

use crate::harness::Shape;

const PRIMES: [u64; 5] = [
    0x9E37_79B1_85EB_CA87,
    0xC2B2_AE3D_27D4_EB4F,
    0x1656_67B1_9E37_79F9,
    0x85EB_CA77_C2B2_AE63,
    0x27D4_EB2F_1656_67C5,
];

fn number(bytes: &[u8]) -> u64 {
    bytes.iter().rev().fold(0, |number, byte| number << 8 | u64::from(*byte))
}

fn round(sum: u64, word: u64) -> u64 {
    let sum = sum.wrapping_add(word.wrapping_mul(PRIMES[1]));
    sum.rotate_left(31).wrapping_mul(PRIMES[0])
}

/// Four lanes take eight bytes of each 32 in turn, and are then mixed together.
fn of_lanes(blocks: &[u8], seed: u64) -> u64 {
    let first = seed.wrapping_add(PRIMES[0]).wrapping_add(PRIMES[1]);
    let mut lanes = [first, seed.wrapping_add(PRIMES[1]), seed, seed.wrapping_sub(PRIMES[0])];
    for block in blocks.chunks_exact(32) {
        for (lane, word) in lanes.iter_mut().zip(block.chunks_exact(8)) {
            *lane = round(*lane, number(word));
        }
    }
    let turned = lanes.iter().zip([1, 7, 12, 18]).map(|(lane, turn)| lane.rotate_left(turn));
    lanes.iter().fold(turned.fold(0, u64::wrapping_add), |sum, lane| {
        (sum ^ round(0, *lane)).wrapping_mul(PRIMES[0]).wrapping_add(PRIMES[3])
    })
}

/// What is left after the last 32: by eight bytes, by four, one by one.
fn of_rest(mut sum: u64, mut rest: &[u8]) -> u64 {
    while let Some((word, after)) = rest.split_at_checked(8) {
        sum = (sum ^ round(0, number(word))).rotate_left(27);
        (sum, rest) = (sum.wrapping_mul(PRIMES[0]).wrapping_add(PRIMES[3]), after);
    }
    if let Some((word, after)) = rest.split_at_checked(4) {
        sum = (sum ^ number(word).wrapping_mul(PRIMES[0])).rotate_left(23);
        (sum, rest) = (sum.wrapping_mul(PRIMES[1]).wrapping_add(PRIMES[2]), after);
    }
    rest.iter().fold(sum, |sum, byte| {
        let mixed = sum ^ u64::from(*byte).wrapping_mul(PRIMES[4]);
        mixed.rotate_left(11).wrapping_mul(PRIMES[0])
    })
}

pub fn xxh64(bytes: &[u8], seed: u64) -> u64 {
    let blocks = &bytes[..bytes.len() / 32 * 32];
    let begun =
        if blocks.is_empty() { seed.wrapping_add(PRIMES[4]) } else { of_lanes(blocks, seed) };
    let sum = of_rest(begun.wrapping_add(bytes.len() as u64), &bytes[blocks.len()..]);
    let sum = (sum ^ sum >> 33).wrapping_mul(PRIMES[1]);
    let sum = (sum ^ sum >> 29).wrapping_mul(PRIMES[2]);
    sum ^ sum >> 32
}

/// A unit, as every call on it names it.
#[derive(Clone, Copy)]
pub struct UnitOf<'a> {
    pub shape: Shape,
    pub stripes: usize,
    pub name: &'a [u8],
    pub unit: u64,
}

impl UnitOf<'_> {
    pub fn piece_length(&self) -> usize {
        self.stripes * self.shape.cell_size
    }

    /// How many pieces there are: a place for each row of each disk.
    pub fn places(&self) -> usize {
        self.shape.width * (self.shape.disks + 2)
    }

    fn seed(&self, disk: u32, row: u32) -> u64 {
        let place = [&disk.to_le_bytes()[..], &row.to_le_bytes(), &self.unit.to_le_bytes()];
        xxh64(&[self.name, &place.concat()].concat(), 0)
    }

    /// The checksum of a piece at a place.
    pub fn sum(&self, place: usize, piece: &[u8]) -> [u8; 8] {
        let (disk, row) = (place / self.shape.width, place % self.shape.width);
        xxh64(piece, self.seed(disk as u32, row as u32)).to_le_bytes()
    }

    pub fn guard(&self, sums: &[u8]) -> [u8; 8] {
        xxh64(sums, self.seed(u32::MAX, u32::MAX)).to_le_bytes()
    }

    /// The block ends with its guard.
    pub fn is_sealed(&self, block: &[u8]) -> bool {
        let (sums, guard) = block.split_at(8 * self.places());
        self.guard(sums) == guard
    }

    /// The piece at a place of the unit has the checksum that the block has for it.
    pub fn fits(&self, block: &[u8], cells: &[u8], place: usize) -> bool {
        let length = self.piece_length();
        let piece = &cells[place * length..(place + 1) * length];
        self.sum(place, piece) == block[8 * place..8 * place + 8]
    }
}
