//! The one way by which the bytes of a set are read: what does not fit its checksum is mended from
//! the rest of its unit and compared, or is not handed out.

mod blocks;
mod expect;
mod film;
mod mend;
mod torn;

use std::io;
use std::ops::Range;
use std::sync::Arc;

use crate::fault::Fault;
use crate::layout::blocks::Blocks;
use crate::layout::cells::Cells;
use crate::layout::geometry::{Batch, Geometry};
use crate::os::pace::Pace;
use crate::read::gaps::Beyond;
use crate::read::holes::Holes;
use crate::read::image::{Bounce, Image};
use crate::read::rows::{self, Row};
use crate::read::set::Set;
use crate::read::source::{is_late, Source};
use crate::read::wanted::{Reading, Wanted};
use crate::read::way::Way;

/// What is known of a piece of the batch.
#[derive(Clone, Copy, Debug, PartialEq, Eq)]
enum Known {
    Unread,
    /// In memory, and not compared with its sum.
    Fresh,
    Good,
    Bad,
    /// Not all of its cells can be read.
    Torn,
}

/// How a piece is bad.
#[derive(Clone, Copy, Debug, PartialEq, Eq)]
pub enum Flaw {
    /// It does not fit its checksum.
    Sum,
    /// It cannot be read.
    Read,
}

/// A piece of an image that is there and bad.
#[derive(Clone, Copy, Debug, PartialEq, Eq)]
pub struct Bad {
    pub disk: usize,
    pub row: usize,
    /// By its place in the batch.
    pub unit: usize,
    pub flaw: Flaw,
}

pub struct Reader {
    set: Arc<Set>,
    geometry: Geometry,
    cells: Cells,
    blocks: Blocks,
    states: Vec<Known>,
    holes: Holes,
    bad: Vec<Bad>,
    /// The units of the batch that have a bad piece.
    flawed: Vec<bool>,
    stripe: Vec<u8>,
    /// One for each thread, at least one.
    bounces: Vec<Bounce>,
    pace: Pace,
    /// Who is asked instead of the images, if somebody is.
    source: Option<Arc<dyn Source>>,
    /// Bytes read so far of each disk, of cells and checksum blocks.
    read: Vec<u64>,
    /// Units so far in which something had to be mended.
    pub mended: u64,
}

impl Reader {
    /// A reader of batches of at most so many bytes of stripes.
    pub fn new(set: Arc<Set>, bytes: u64, pace: Pace) -> Reader {
        let geometry = set.label.geometry;
        Reader {
            geometry,
            cells: Cells::new(geometry, bytes),
            blocks: Blocks::new(set.label.set, geometry),
            states: Vec::new(),
            holes: Holes::default(),
            bad: Vec::new(),
            flawed: Vec::new(),
            stripe: vec![0; geometry.shape.stripe_len()],
            bounces: (0..set.threads()).map(|_| Bounce::default()).collect(),
            pace,
            source: None,
            read: vec![0; geometry.disks()],
            mended: 0,
            set,
        }
    }

    /// The same without threads of its own: others read beside it.
    pub fn alone(mut self) -> Reader {
        self.bounces.truncate(1);
        self
    }

    pub fn geometry(&self) -> Geometry {
        self.geometry
    }

    /// The batch that is in memory.
    pub fn batch(&self) -> Batch {
        self.cells.batch
    }

    pub(crate) fn cells(&self) -> &Cells {
        &self.cells
    }

    /// A piece of a unit of the batch, if it is in memory and was compared with its sum.
    pub(crate) fn piece(&self, disk: usize, row: usize, unit: usize) -> Option<&[u8]> {
        let good = self.states.get(self.at(unit, disk, row)) == Some(&Known::Good);
        good.then(|| self.cells.piece(disk, row, unit))
    }

    pub fn blocks(&self) -> &Blocks {
        &self.blocks
    }

    /// Bytes read so far, of cells and checksum blocks.
    pub fn read(&self) -> u64 {
        self.read.iter().sum()
    }

    /// The bytes of the disk of which the most were read.
    pub fn busiest(&self) -> u64 {
        self.read.iter().copied().max().unwrap_or(0)
    }

    /// The bad pieces of the batch that were seen.
    pub fn bad(&self) -> &[Bad] {
        &self.bad
    }

    /// Tells the kernel what is read next.
    pub fn ahead(&self, batch: Option<Batch>, wanted: &Wanted) {
        let Some(batch) = batch.filter(|_| !self.pace.is_limited()) else { return };
        self.coming(batch, wanted, |_, image, at, len| image.ahead(at, len));
    }

    /// Hands on what is read of a batch, by disk, image, byte and length: first the checksum
    /// blocks, which are waited for first.
    pub fn coming(
        &self,
        batch: Batch,
        wanted: &Wanted,
        mut each: impl FnMut(usize, &Image, u64, u64),
    ) {
        let quietest = wanted.quietest(&self.set);
        let first = quietest.first().and_then(|disk| Some((*disk, self.set.image(*disk)?)));
        if let Some((disk, image)) = first {
            let len = batch.units * self.geometry.block_len();
            each(disk, image, self.geometry.block_at(batch.unit), len as u64);
        }
        for Reading { disk, rows } in &wanted.readings {
            let Some(image) = self.set.image(*disk) else { continue };
            for rows in self.geometry.stretches(batch, rows.clone()) {
                let len = rows.len() * batch.count * self.geometry.shape.cell_size();
                each(*disk, image, self.geometry.cell_at(rows.start, batch.first), len as u64);
            }
        }
    }

    /// Brings what is wanted of a batch into memory, verified; the stripes where that cannot be.
    pub fn load(&mut self, batch: Batch, wanted: &Wanted) -> Result<Vec<Beyond>, Fault> {
        self.expect(batch, wanted);
        self.begin(batch, wanted);
        if self.source.is_some() && self.blocks.unknown().next().is_some() {
            return Ok((0..batch.units).map(|unit| self.beyond(unit)).collect());
        }
        self.read_all(wanted, true);
        let mut beyond = Vec::new();
        for unit in 0..batch.units {
            beyond.extend(self.finish(unit, wanted)?);
        }
        Ok(beyond)
    }

    /// Brings back what is lost of a unit and mends what is bad; why that cannot be.
    fn finish(&mut self, unit: usize, wanted: &Wanted) -> Result<Option<Beyond>, Fault> {
        if !self.is_back(unit, &wanted.way) && self.is_read(unit, wanted) {
            self.bring_back(unit, wanted, true)?;
        }
        if self.is_good(unit, wanted) {
            return Ok(None);
        }
        if !self.source.as_ref().is_some_and(|source| source.gives_up()) {
            self.mend(unit);
        }
        if self.is_good(unit, wanted) {
            self.mended += 1;
            return Ok(None);
        }
        Ok(Some(self.beyond(unit)))
    }

    /// Whether every piece of a unit was read and fitted its sum.
    pub fn is_sound(&self, unit: usize) -> bool {
        let disks: Vec<usize> = (0..self.geometry.disks()).collect();
        self.has(unit, &disks) && !self.flawed[unit]
    }

    fn count(&mut self, disk: usize, bytes: usize) {
        self.read[disk] += bytes as u64;
        self.pace.spend([(disk, bytes as u64)]);
    }

    fn pieces(&self) -> usize {
        self.geometry.disks() * self.geometry.shape.width()
    }

    fn at(&self, unit: usize, disk: usize, row: usize) -> usize {
        unit * self.pieces() + disk * self.geometry.shape.width() + row
    }

    /// Whether all pieces of disks are good in a unit.
    fn has(&self, unit: usize, disks: &[usize]) -> bool {
        let good = |disk: &usize| {
            let start = self.at(unit, *disk, 0);
            let states = &self.states[start..start + self.geometry.shape.width()];
            states.iter().all(|state| *state == Known::Good)
        };
        disks.iter().all(good)
    }

    /// Whether pieces of a unit are in memory, compared or not.
    fn is_there(&self, unit: usize, mut pieces: impl Iterator<Item = (usize, usize)>) -> bool {
        let there = |state: Option<&Known>| matches!(state, Some(Known::Good | Known::Fresh));
        pieces.all(|(disk, row)| there(self.states.get(self.at(unit, disk, row))))
    }

    /// Whether all that is read of a unit is good.
    fn is_read(&self, unit: usize, wanted: &Wanted) -> bool {
        self.holds(unit, wanted.pieces())
    }

    fn is_good(&self, unit: usize, wanted: &Wanted) -> bool {
        self.is_read(unit, wanted) && self.is_back(unit, &wanted.way)
    }

    /// Whether all that a way brings back is good in a unit.
    fn is_back(&self, unit: usize, way: &Way) -> bool {
        self.holds(unit, way.pieces(self.geometry.shape.width()))
    }

    /// Whether pieces of a unit of the batch, by disk and row, are in memory and good.
    pub fn holds(&self, unit: usize, mut pieces: impl Iterator<Item = (usize, usize)>) -> bool {
        pieces.all(|(disk, row)| self.states.get(self.at(unit, disk, row)) == Some(&Known::Good))
    }

    /// Reads all rows that are wanted and not there, and compares them or not.
    fn read_all(&mut self, wanted: &Wanted, compared: bool) {
        let units = 0..self.cells.batch.units;
        let unread = |one: &&Reading| {
            let mut pieces =
                units.clone().flat_map(|unit| one.rows.clone().map(move |row| (unit, row)));
            pieces.any(|(unit, row)| self.states[self.at(unit, one.disk, row)] == Known::Unread)
        };
        let todo: Vec<Reading> = wanted.readings.iter().filter(unread).cloned().collect();
        let read = rows::read(
            &self.set,
            &mut self.cells,
            compared.then_some(&self.blocks),
            &todo,
            &mut self.bounces,
            &mut self.pace,
            self.source.as_deref(),
        );
        for (Row { disk, row }, verdict) in read {
            match verdict {
                Ok(fits) => {
                    let len = self.cells.batch.count * self.geometry.shape.cell_size();
                    self.read[disk] += len as u64;
                    for unit in units.clone() {
                        match fits.get(unit) {
                            Some(fits) => self.judge(unit, disk, row, *fits),
                            None => self.keep(unit, disk, row),
                        }
                    }
                }
                Err(error) if is_late(&error) => {}
                Err(_) => units.clone().for_each(|unit| self.read_piece(unit, disk, row)),
            }
        }
    }

    /// Keeps whether a piece fits its sum.
    fn judge(&mut self, unit: usize, disk: usize, row: usize, fits: bool) {
        let at = self.at(unit, disk, row);
        let known =
            std::mem::replace(&mut self.states[at], if fits { Known::Good } else { Known::Bad });
        let seen = matches!(known, Known::Unread | Known::Fresh);
        if !fits && seen && self.blocks.is_known(unit) {
            self.flaw(Bad { disk, row, unit, flaw: Flaw::Sum });
        }
    }

    /// Keeps that a piece is in memory.
    fn keep(&mut self, unit: usize, disk: usize, row: usize) {
        let at = self.at(unit, disk, row);
        self.states[at] = Known::Fresh;
    }

    fn flaw(&mut self, bad: Bad) {
        self.flawed[bad.unit] = true;
        self.bad.push(bad);
    }

    fn read_cells(&mut self, disk: usize, row: usize, places: Range<usize>) -> io::Result<()> {
        let Some(image) = self.set.image(disk) else { return Err(io::ErrorKind::NotFound.into()) };
        let at = self.geometry.cell_at(row, self.cells.batch.first + places.start as u64);
        let bytes = self.cells.cells_mut(disk, row, places);
        let len = bytes.len();
        match &self.source {
            Some(source) => source.read(disk, image, bytes, at)?,
            None => image.read(bytes, at, &mut self.bounces[0])?,
        }
        self.count(disk, len);
        Ok(())
    }

    fn beyond(&self, unit: usize) -> Beyond {
        let stripes = self.geometry.stripes_of(self.cells.batch.unit + unit as u64);
        let bad = |disk: &usize| !self.has(unit, &[*disk]);
        let disks = match self.blocks.is_known(unit) {
            true => (0..self.geometry.disks()).filter(bad).collect(),
            false => Vec::new(),
        };
        Beyond { stripes, disks }
    }
}
