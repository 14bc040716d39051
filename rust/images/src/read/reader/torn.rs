//! Pieces of which some cells cannot be read, and others can.

use std::ops::Range;

use super::{Bad, Flaw, Known, Reader};
use crate::read::source::is_late;

/// What a drive can read or not at least: within it reads are not tried piece by piece.
const SECTOR: u64 = 512;

impl Reader {
    /// Reads a piece or, where that fails, those of its cells that can be read.
    pub(super) fn read_piece(&mut self, unit: usize, disk: usize, row: usize) {
        let places = self.geometry.places(self.cells.batch, unit);
        match self.read_cells(disk, row, places.clone()) {
            Ok(()) => {
                let fits = self.blocks.fits(unit, disk, row, self.cells.piece(disk, row, unit));
                return self.judge(unit, disk, row, fits);
            }
            Err(error) if is_late(&error) => return, // it may come yet
            Err(_) => {}
        }
        self.read_halves(disk, row, places);
        let at = self.at(unit, disk, row);
        self.states[at] = Known::Torn;
        self.flaw(Bad { disk, row, unit, flaw: Flaw::Read });
    }

    /// Reads both halves of cells that cannot be read together, down to single ones or a sector.
    fn read_halves(&mut self, disk: usize, row: usize, places: Range<usize>) {
        let start = self.geometry.cell_at(row, self.cells.batch.first + places.start as u64);
        let end = start + (places.len() * self.geometry.shape.cell_size()) as u64;
        if places.len() == 1 || start / SECTOR == (end - 1) / SECTOR {
            let all = self.pieces() * self.cells.batch.count;
            places.for_each(|place| self.holes.add(self.cell(disk, row, place), all));
            return;
        }
        let middle = places.start + places.len() / 2;
        for half in [places.start..middle, middle..places.end] {
            if self.read_cells(disk, row, half.clone()).is_err() {
                self.read_halves(disk, row, half);
            }
        }
    }

    /// The number of a cell in the batch.
    fn cell(&self, disk: usize, row: usize, place: usize) -> usize {
        (disk * self.geometry.shape.width() + row) * self.cells.batch.count + place
    }

    /// Whether a cell could be read, of a piece of which others could not.
    pub(super) fn is_readable(&self, unit: usize, disk: usize, row: usize, place: usize) -> bool {
        let torn = self.states[self.at(unit, disk, row)] == Known::Torn;
        torn && !self.holes.has(self.cell(disk, row, place))
    }
}
