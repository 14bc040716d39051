//! The film of units in memory: what was read is compared where film is copied, by the proved call,
//! and once more piece by piece only where that refuses.

use cuzhaveli::Refusal;

use super::{Known, Reader};
use crate::fault::Fault;
use crate::layout::geometry::Batch;
use crate::read::gaps::Beyond;
use crate::read::wanted::Wanted;

impl Reader {
    /// Brings what a film takes of a batch into memory, and lost disks back, not yet compared.
    pub fn fetch(&mut self, batch: Batch, wanted: &Wanted) -> Result<(), Fault> {
        self.begin(batch, wanted);
        self.read_all(wanted, false);
        for unit in 0..batch.units {
            let lost = wanted.way.pieces(self.geometry.shape.width());
            if !self.is_there(unit, lost) && self.is_there(unit, wanted.pieces()) {
                self.bring_back(unit, wanted, false)?;
            }
        }
        Ok(())
    }

    /// Copies film of a unit of the batch, from a byte of its film on; refused where a piece of it
    /// does not fit its sum.
    pub fn film(&self, unit: usize, from: usize, film: &mut [u8]) -> Result<(), Refusal> {
        self.cells.film(unit, &self.blocks, from, film)
    }

    /// Compares what was fetched of a unit, and mends it; why that cannot be.
    pub fn set_right(&mut self, unit: usize, wanted: &Wanted) -> Result<Option<Beyond>, Fault> {
        for disk in 0..self.geometry.disks() {
            for row in 0..self.geometry.shape.width() {
                let at = self.at(unit, disk, row);
                if self.states[at] != Known::Fresh {
                    continue;
                }
                let fits = self.blocks.fits(unit, disk, row, self.cells.piece(disk, row, unit));
                match self.set.image(disk) {
                    Some(_) => self.judge(unit, disk, row, fits),
                    None if fits => self.states[at] = Known::Good,
                    None => self.states[at] = Known::Unread,
                }
            }
        }
        self.finish(unit, wanted)
    }
}
