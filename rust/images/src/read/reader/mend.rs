//! What is lost or bad comes back: by a plan where all that it reads is good, else from all of the
//! unit that is.

use cuzhaveli::Refusal;

use super::{Known, Reader};
use crate::fault::Fault;
use crate::layout::cells::Cells;
use crate::read::wanted::Wanted;
use crate::read::way::Way;

impl Reader {
    /// Brings lost disks back by their plan from what was read, and compares them or not.
    pub(super) fn bring_back(
        &mut self,
        unit: usize,
        wanted: &Wanted,
        compared: bool,
    ) -> Result<(), Fault> {
        let shape = self.geometry.shape;
        let mut column = vec![0; shape.column_len()];
        for place in self.geometry.places(self.cells.batch, unit) {
            for need in &wanted.needs {
                self.cells.take(need.row, need.disk, place, &mut self.stripe, need.as_disk);
            }
            let stripe = &mut self.stripe[..];
            let done = match &wanted.way {
                Way::None => Ok(()),
                Way::Ours(lost) => shape.rebuild_one(*lost, stripe, &mut column),
                Way::Balanced(lost) => shape.rebuild_balanced(*lost, stripe, &mut column),
                Way::Fewest(lost, plan) | Way::Relief(lost, plan) | Way::Plan(lost, plan) => {
                    shape.rebuild_by_plan(*lost, plan, stripe, &mut column)
                }
                Way::Tested(lost) => shape.rebuild_tested(*lost, stripe, &mut column),
                Way::Rows(_) | Way::SomeRows(..) => {
                    shape.rebuild_one(shape.disks(), stripe, &mut column)
                }
                Way::Two(both) => shape.rebuild_two(*both, stripe),
            };
            let number = self.cells.batch.first + place as u64;
            done.map_err(|refusal| Fault::Refused(refusal, format!("stripe {number}: ")))?;
            for disk in wanted.way.lost() {
                let from = match wanted.way {
                    Way::Two(_) => &self.stripe[shape.disk_range(*disk)],
                    _ => &column,
                };
                let first = self.at(unit, *disk, 0);
                let states = &self.states[first..first + shape.width()];
                put_back(&mut self.cells, states, *disk, place, from);
            }
        }
        if compared {
            self.compare(unit, wanted.way.lost());
            return Ok(());
        }
        for (disk, row) in wanted.way.pieces(shape.width()) {
            if self.states[self.at(unit, disk, row)] != Known::Good {
                self.keep(unit, disk, row);
            }
        }
        Ok(())
    }

    /// Compares the pieces of disks in a unit that are not known to be good with their sums.
    fn compare(&mut self, unit: usize, disks: &[usize]) {
        for disk in disks {
            for row in 0..self.geometry.shape.width() {
                let at = self.at(unit, *disk, row);
                let piece = self.cells.piece(*disk, row, unit);
                if self.states[at] != Known::Good && self.blocks.fits(unit, *disk, row, piece) {
                    self.states[at] = Known::Good;
                }
            }
        }
    }

    /// Reads the rest of a unit and mends what of it is lost or bad, as far as that can be done.
    pub(super) fn mend(&mut self, unit: usize) {
        let disks: Vec<usize> = (0..self.geometry.disks()).collect();
        self.expect_rest(unit);
        let set = self.set.clone();
        for disk in set.present() {
            for row in 0..self.geometry.shape.width() {
                if self.states[self.at(unit, disk, row)] == Known::Unread {
                    self.read_piece(unit, disk, row);
                }
            }
        }
        if !self.blocks.is_known(unit) {
            return;
        }
        self.solve_all(unit, &disks);
        if !self.has(unit, &disks) && self.take_remnants(unit) {
            self.solve_all(unit, &disks);
        }
    }

    /// Mends first with what could be read of pieces that cannot be read whole, then without it.
    fn solve_all(&mut self, unit: usize, disks: &[usize]) {
        if self.is_torn(unit) && self.solve_torn(unit).is_ok() {
            self.compare(unit, disks);
        }
        if !self.has(unit, disks) {
            self.open(unit);
        }
    }

    /// Mends a unit from its pieces that are good, by the proved call, which compares all.
    fn open(&mut self, unit: usize) {
        let first = self.at(unit, 0, 0);
        let states = &mut self.states[first..first + self.blocks.unit(unit).pieces()];
        let mut marks: Vec<u8> =
            states.iter().map(|state| u8::from(*state != Known::Good)).collect();
        let cells = self.cells.unit_mut(unit);
        if self.blocks.unit(unit).open(self.blocks.block(unit), &mut marks, cells).is_err() {
            return;
        }
        for (state, mark) in states.iter_mut().zip(marks) {
            match (mark, *state) {
                (0, _) => *state = Known::Good,
                (_, Known::Good) => *state = Known::Bad,
                _ => {}
            }
        }
    }

    /// Takes what fits its sums of images that count as lost; says whether there is something.
    fn take_remnants(&mut self, unit: usize) -> bool {
        let (set, places) = (self.set.clone(), self.geometry.places(self.cells.batch, unit));
        let mut taken = false;
        for (disk, image) in set.remnants() {
            for row in 0..self.geometry.shape.width() {
                let state = self.at(unit, disk, row);
                if self.states[state] == Known::Good {
                    continue;
                }
                let at = self.geometry.cell_at(row, self.cells.batch.first + places.start as u64);
                let bytes = self.cells.piece_mut(disk, row, unit);
                let len = bytes.len();
                let read = match &self.source {
                    Some(source) => source.read(disk, image, bytes, at),
                    None => image.read(bytes, at, &mut self.bounces[0]),
                };
                if read.is_err() {
                    continue;
                }
                self.count(disk, len);
                if self.blocks.fits(unit, disk, row, self.cells.piece(disk, row, unit)) {
                    self.states[state] = Known::Good;
                    taken = true;
                }
            }
        }
        taken
    }

    /// Whether a piece of a unit can be read in part.
    fn is_torn(&self, unit: usize) -> bool {
        let first = self.at(unit, 0, 0);
        self.states[first..first + self.pieces()].contains(&Known::Torn)
    }

    /// Computes the cells of a unit that cannot be read, stripe by stripe, with those of their
    /// pieces that can.
    fn solve_torn(&mut self, unit: usize) -> Result<(), Refusal> {
        let (shape, width) = (self.geometry.shape, self.geometry.shape.width());
        let mut missing = vec![0; self.pieces()];
        for place in self.geometry.places(self.cells.batch, unit) {
            for (cell, mark) in missing.iter_mut().enumerate() {
                let (disk, row) = (cell / width, cell % width);
                let good = self.states[self.at(unit, disk, row)] == Known::Good;
                *mark = u8::from(!good && !self.is_readable(unit, disk, row, place));
                if *mark == 0 {
                    self.cells.take(row, disk, place, &mut self.stripe, disk);
                }
            }
            shape.rebuild_cells(&missing, &mut self.stripe)?;
            for cell in (0..missing.len()).filter(|cell| missing[*cell] == 1) {
                let (disk, row) = (cell / width, cell % width);
                let bytes = &self.stripe[shape.cell_range(row, disk)];
                self.cells.cells_mut(disk, row, place..place + 1).copy_from_slice(bytes);
            }
        }
        Ok(())
    }
}

/// Copies a disk's part of a stripe to its cells, but to those of pieces that are good already.
fn put_back(cells: &mut Cells, states: &[Known], disk: usize, place: usize, column: &[u8]) {
    let size = column.len() / states.len();
    for (row, cell) in column.chunks_exact(size).enumerate() {
        if states[row] != Known::Good {
            cells.cells_mut(disk, row, place..place + 1).copy_from_slice(cell);
        }
    }
}
