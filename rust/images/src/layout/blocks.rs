//! The checksum blocks of a batch, each compared with its guard, and pieces compared with them: by
//! the proved calls alone.

use cuzhaveli::{Refusal, Unit};

use crate::layout::cells::Cells;
use crate::layout::geometry::{Batch, Geometry};
use crate::layout::sums::SetName;
use crate::os::parallel;

pub struct Blocks {
    set: SetName,
    geometry: Geometry,
    batch: Batch,
    bytes: Vec<u8>,
    known: Vec<bool>,
}

impl Blocks {
    pub fn new(set: SetName, geometry: Geometry) -> Blocks {
        let batch = Batch { unit: 0, units: 0, first: 0, count: 0 };
        Blocks { set, geometry, batch, bytes: Vec::new(), known: Vec::new() }
    }

    /// Forgets all, for a batch of which nothing is known.
    pub fn clear(&mut self, batch: Batch) {
        self.batch = batch;
        self.bytes = vec![0; batch.units * self.geometry.block_len()];
        self.known = vec![false; batch.units];
    }

    /// A unit of the batch as the proved calls know it.
    pub fn unit(&self, unit: usize) -> Unit {
        unit_of(self.set, self.geometry, self.batch, unit)
    }

    /// The units of the batch whose block is not known.
    pub fn unknown(&self) -> impl Iterator<Item = usize> + '_ {
        (0..self.known.len()).filter(|unit| !self.known[*unit])
    }

    pub fn is_known(&self, unit: usize) -> bool {
        self.known[unit]
    }

    /// The block of a unit; one that is not known fits no guard.
    pub fn block(&self, unit: usize) -> &[u8] {
        let len = self.geometry.block_len();
        &self.bytes[unit * len..(unit + 1) * len]
    }

    /// All blocks, as they follow one another in an image.
    pub fn all(&self) -> &[u8] {
        &self.bytes
    }

    /// Takes a block that was read, if its guard fits.
    pub fn take(&mut self, unit: usize, block: &[u8]) {
        if self.unit(unit).block_fits(block).is_ok() {
            let len = self.geometry.block_len();
            self.bytes[unit * len..(unit + 1) * len].copy_from_slice(block);
            self.known[unit] = true;
        }
    }

    /// Whether a piece is the one whose sum the unit's block has.
    pub fn fits(&self, unit: usize, disk: usize, row: usize, piece: &[u8]) -> bool {
        self.unit(unit).piece_fits(self.block(unit), disk, row, piece).is_ok()
    }

    /// The blocks of all units of new cells.
    pub fn seal(&mut self, cells: &Cells) -> Result<(), Refusal> {
        let (set, geometry, batch) = (self.set, self.geometry, self.batch);
        let units: Vec<_> = self.bytes.chunks_exact_mut(geometry.block_len()).enumerate().collect();
        let seal = |(unit, block): (usize, &mut [u8]), (): &mut ()| {
            unit_of(set, geometry, batch, unit).seal(cells.unit(unit), block)
        };
        parallel::each(&mut [(), ()], units, seal).into_iter().collect::<Result<(), Refusal>>()?;
        self.known.fill(true);
        Ok(())
    }
}

fn unit_of(set: SetName, geometry: Geometry, batch: Batch, unit: usize) -> Unit {
    let stripes = geometry.places(batch, unit).len();
    Unit { shape: geometry.shape, stripes, set, number: batch.unit + unit as u64 }
}
