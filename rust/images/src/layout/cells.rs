//! The cells of a batch in memory: its units one after another, each as the proved calls take it,
//! disk by disk and row by row. Nobody beside this crate sees these bytes but by [`Cells::film`].

use std::ops::Range;

use cuzhaveli::Refusal;

use crate::layout::blocks::Blocks;
use crate::layout::geometry::{Batch, Geometry};

pub struct Cells {
    geometry: Geometry,
    pub batch: Batch,
    bytes: Vec<u8>,
}

impl Cells {
    /// Room for any batch of so many bytes of stripes.
    pub fn new(geometry: Geometry, bytes: u64) -> Cells {
        let none = Batch { unit: 0, units: 0, first: 0, count: 0 };
        let most = if geometry.units() == 0 { none } else { geometry.batch(0, bytes) };
        let bytes = vec![0; most.count * geometry.shape.stripe_len()];
        Cells { geometry, batch: none, bytes }
    }

    /// Copies film of a unit, from a byte of its film on, by the proved call: it compares each piece
    /// that these bytes are in with its checksum.
    pub fn film(
        &self,
        unit: usize,
        blocks: &Blocks,
        from: usize,
        film: &mut [u8],
    ) -> Result<(), Refusal> {
        blocks.unit(unit).film(blocks.block(unit), self.unit(unit), from, film)
    }

    /// The pieces of a unit, and the bytes of each.
    fn pieces(&self, unit: usize) -> (usize, usize) {
        let stripes = self.geometry.places(self.batch, unit).len();
        let pieces = self.geometry.disks() * self.geometry.shape.width();
        (pieces, stripes * self.geometry.shape.cell_size())
    }

    fn range(&self, unit: usize) -> Range<usize> {
        let places = self.geometry.places(self.batch, unit);
        let stripe = self.geometry.shape.stripe_len();
        places.start * stripe..places.end * stripe
    }

    fn piece_range(&self, disk: usize, row: usize, unit: usize) -> Range<usize> {
        let (_, len) = self.pieces(unit);
        let start = self.range(unit).start + (disk * self.geometry.shape.width() + row) * len;
        start..start + len
    }

    /// A unit, by its place in the batch.
    pub(crate) fn unit(&self, unit: usize) -> &[u8] {
        &self.bytes[self.range(unit)]
    }

    pub(crate) fn unit_mut(&mut self, unit: usize) -> &mut [u8] {
        let range = self.range(unit);
        &mut self.bytes[range]
    }

    /// A piece: the cells of a row of a unit, by the unit's place in the batch.
    pub(crate) fn piece(&self, disk: usize, row: usize, unit: usize) -> &[u8] {
        &self.bytes[self.piece_range(disk, row, unit)]
    }

    pub(crate) fn piece_mut(&mut self, disk: usize, row: usize, unit: usize) -> &mut [u8] {
        let range = self.piece_range(disk, row, unit);
        &mut self.bytes[range]
    }

    /// The pieces of the batch, unit by unit, disk by disk, row by row.
    pub(crate) fn pieces_mut(&mut self) -> Vec<&mut [u8]> {
        let units: Vec<(usize, usize)> =
            (0..self.batch.units).map(|unit| self.pieces(unit)).collect();
        let (mut rest, mut done) = (&mut self.bytes[..], Vec::new());
        for (pieces, len) in units {
            let (unit, after) = rest.split_at_mut(pieces * len);
            done.extend(unit.chunks_exact_mut(len));
            rest = after;
        }
        done
    }

    fn cells_range(&self, disk: usize, row: usize, places: Range<usize>) -> Range<usize> {
        let (unit, size) =
            (places.start / self.geometry.unit as usize, self.geometry.shape.cell_size());
        let within = places.start - self.geometry.places(self.batch, unit).start;
        let start = self.piece_range(disk, row, unit).start + within * size;
        start..start + places.len() * size
    }

    /// Cells of a piece, by their stripes' places in the batch.
    pub(crate) fn cells_mut(&mut self, disk: usize, row: usize, places: Range<usize>) -> &mut [u8] {
        let range = self.cells_range(disk, row, places);
        &mut self.bytes[range]
    }

    /// Leaves out stripes at the end of the batch.
    pub(crate) fn shorten(&mut self, batch: Batch) {
        let last = batch.units.saturating_sub(1);
        let (_, old) = self.pieces(last);
        self.batch = batch;
        let ((pieces, new), start) = (self.pieces(last), self.range(last).start);
        for piece in 0..pieces {
            let from = start + piece * old;
            self.bytes.copy_within(from..from + new, start + piece * new);
        }
    }

    /// Copies a cell to its place, or another disk's, in a stripe.
    pub(crate) fn take(
        &self,
        row: usize,
        disk: usize,
        place: usize,
        stripe: &mut [u8],
        as_disk: usize,
    ) {
        let cell = self.geometry.shape.cell_range(row, as_disk);
        stripe[cell].copy_from_slice(&self.bytes[self.cells_range(disk, row, place..place + 1)]);
    }

    /// Copies a disk's part of a stripe to its cells.
    pub(crate) fn put(&mut self, disk: usize, place: usize, column: &[u8]) {
        let size = self.geometry.shape.cell_size();
        for (row, cell) in column.chunks_exact(size).enumerate() {
            self.cells_mut(disk, row, place..place + 1).copy_from_slice(cell);
        }
    }

    /// Copies a stripe.
    pub(crate) fn stripe(&self, place: usize, stripe: &mut [u8]) {
        for disk in 0..self.geometry.disks() {
            for row in 0..self.geometry.shape.width() {
                self.take(row, disk, place, stripe, disk);
            }
        }
    }
}
