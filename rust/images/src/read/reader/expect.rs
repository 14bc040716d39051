//! A reader that does not ask its images itself: all that it needs is asked for at once.

use std::sync::Arc;

use super::{Known, Reader};
use crate::layout::geometry::Batch;
use crate::read::source::Source;
use crate::read::wanted::{Reading, Wanted};

impl Reader {
    /// From now on this one is asked for the bytes of images, or the images themselves.
    pub fn through(&mut self, source: Option<Arc<dyn Source>>) {
        self.source = source;
    }

    /// Says which rows of a batch are going to be read for what is wanted.
    pub(super) fn expect(&self, batch: Batch, wanted: &Wanted) {
        let Some(source) = &self.source else { return };
        let new = self.cells.batch != batch;
        let unread = |disk: usize, row: usize| {
            let state = |unit| self.states.get(self.at(unit, disk, row));
            new || (0..batch.units).any(|unit| state(unit) == Some(&Known::Unread))
        };
        let len = batch.count * self.geometry.shape.cell_size();
        for Reading { disk, rows } in &wanted.readings {
            let Some(image) = self.set.image(*disk) else { continue };
            for row in rows.clone().filter(|row| unread(*disk, *row)) {
                source.expect(*disk, image, self.geometry.cell_at(row, batch.first), len);
            }
        }
    }

    /// Says that the rest of a unit is going to be read.
    pub(super) fn expect_rest(&self, unit: usize) {
        let Some(source) = &self.source else { return };
        let places = self.geometry.places(self.cells.batch, unit);
        let (first, len) = (self.cells.batch.first + places.start as u64, places.len());
        for disk in self.set.present() {
            let Some(image) = self.set.image(disk) else { continue };
            for row in 0..self.geometry.shape.width() {
                if self.states[self.at(unit, disk, row)] == Known::Unread {
                    let at = self.geometry.cell_at(row, first);
                    source.expect(disk, image, at, len * self.geometry.shape.cell_size());
                }
            }
        }
    }
}
