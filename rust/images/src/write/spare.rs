//! The image that a rebuild writes: what of it verifies stays, and is never written again, since a
//! unit may need it to come back.

use std::io;
use std::path::Path;

use crate::fault::Fault;
use crate::layout::blocks::Blocks;
use crate::layout::geometry::{Batch, Geometry, LABEL_BYTES};
use crate::layout::label::Label;
use crate::read::gaps;
use crate::read::gaps::Beyond;
use crate::read::image::{Bounce, Image};
use crate::read::reader::Reader;
use crate::write::encode::write_blocks;
use crate::write::output::Output;

/// A lost disk's image that is being rebuilt.
pub struct Spare {
    pub disk: usize,
    pub output: Output,
    /// Whether something of it may be there already.
    begun: bool,
    /// What is there as the medium has it: after a sync that failed the page cache has what never
    /// got there.
    medium: Option<Image>,
    /// Whether it is a drive that begins with its label, and nothing of it was written yet.
    labelled: bool,
    /// Whether a unit of it is not there and cannot be rebuilt.
    lacks: bool,
}

/// What of a unit is there and verifies: a bit for each row, and its checksum block.
#[derive(Clone, Copy, Debug, Default, PartialEq, Eq)]
pub struct Kept {
    rows: u32,
    block: bool,
}

impl Kept {
    pub fn is_whole(self, geometry: Geometry) -> bool {
        self.block && self.rows.count_ones() as usize == geometry.shape.width()
    }

    fn has(self, row: usize) -> bool {
        self.rows >> row & 1 == 1
    }
}

/// What of an image is on the medium, if something may be there and it can be read so.
fn medium(output: &Output, begun: bool) -> Option<Image> {
    let mut image = begun.then(|| Image::open(output.path()).ok()).flatten()?;
    image.go_direct().then_some(image)
}

impl Spare {
    /// A file that is gone on with or begun, and takes the place of an image that counts as lost.
    pub fn file(path: &Path, label: &Label, disk: usize) -> Result<Spare, Fault> {
        let (output, begun) = match Output::begun(path, &[label.mark(disk), label.block(disk)])? {
            Some(output) => (output, true),
            None => (Output::create_part(path)?, false),
        };
        let stands = path.symlink_metadata().is_ok();
        let output = if stands { output.replacing() } else { output };
        let medium = medium(&output, begun);
        Ok(Spare { disk, output, begun, medium, labelled: false, lacks: false })
    }

    /// A drive, which may begin with the mark or label of this disk.
    pub fn drive(output: Output, label: &Label, disk: usize) -> Result<Spare, Fault> {
        let first = output.first_block()?;
        let labelled = first == label.block(disk);
        let begun = labelled || first == label.mark(disk);
        let medium = medium(&output, begun);
        Ok(Spare { disk, output, begun, medium, labelled, lacks: false })
    }

    pub fn is_begun(&self) -> bool {
        self.begun
    }

    /// Whether it is not whole, and cannot be made so.
    pub fn lacks(&self) -> bool {
        self.lacks
    }

    /// Marks it as being written. What begins with its mark stays as it is, a part that begins with
    /// its label too, and a drive that does until something of it is written.
    pub fn mark(&mut self, label: &Label) -> Result<(), Fault> {
        let len = label.geometry.image_bytes();
        let ours = [label.mark(self.disk), label.block(self.disk)];
        match ours.contains(&self.output.first_block()?) {
            true => self.output.set_len(len),
            false => self.output.mark(label, self.disk, len),
        }
    }

    /// Reads what is there, past the page cache if that can be had.
    fn read(&self, bytes: &mut [u8], at: u64) -> io::Result<()> {
        match &self.medium {
            Some(image) => image.read(bytes, at, &mut Bounce::default()),
            None => self.output.read(bytes, at),
        }
    }

    /// What of a unit is there and verifies.
    pub fn kept(&self, geometry: Geometry, batch: Batch, blocks: &Blocks, unit: usize) -> Kept {
        if !self.begun || !blocks.is_known(unit) {
            return Kept::default();
        }
        let number = batch.unit + unit as u64;
        let mut block = vec![0; geometry.blocks_len(geometry.batch_of(number, 1))];
        let read = self.read(&mut block, geometry.block_at(number));
        let fill = block.split_off(geometry.block_len()); // up to the next group
        let blank = fill.iter().all(|byte| *byte == 0); // a torn sector there is bad for every check
        let block = read.is_ok() && blank && block == blocks.block(unit);
        let places = geometry.places(batch, unit);
        let mut piece = vec![0; places.len() * geometry.shape.cell_size()];
        let mut rows = 0;
        for row in 0..geometry.shape.width() {
            let at = geometry.cell_at(row, batch.first + places.start as u64);
            let read = self.read(&mut piece, at);
            rows |= u32::from(read.is_ok() && blocks.fits(unit, self.disk, row, &piece)) << row;
        }
        Kept { rows, block }
    }

    /// Writes what was rebuilt of a batch and is not there, without the units that are beyond that.
    pub fn write(
        &mut self,
        label: &Label,
        reader: &Reader,
        beyond: &[Beyond],
        kept: &[Kept],
    ) -> Result<(), Fault> {
        let (geometry, batch) = (label.geometry, reader.batch());
        if beyond.is_empty() && kept.iter().all(|kept| *kept == Kept::default()) {
            self.touch(label)?;
            return self.write_batch(geometry, reader);
        }
        for (unit, kept) in (0..batch.units).zip(kept) {
            let first = geometry.stripes_of(batch.unit + unit as u64).start;
            match (kept.is_whole(geometry), gaps::at(beyond, first)) {
                (true, _) => {}
                (false, Some(_)) => self.lacks = true,
                (false, None) => self.write_unit(label, reader, unit, *kept)?,
            }
        }
        Ok(())
    }

    /// Writes all of a batch, with zeros after the checksum blocks that end a group.
    fn write_batch(&self, geometry: Geometry, reader: &Reader) -> Result<(), Fault> {
        let batch = reader.batch();
        for rows in geometry.stretches(batch, 0..geometry.shape.width()) {
            let at = geometry.cell_at(rows.start, batch.first);
            let each = rows.flat_map(|row| (0..batch.units).map(move |unit| (row, unit)));
            let pieces: Result<Vec<&[u8]>, Fault> =
                each.map(|(row, unit)| self.piece(reader, row, unit)).collect();
            self.output.write_parts(&pieces?, at)?;
        }
        write_blocks(&self.output, geometry, batch, reader.blocks().all())
    }

    /// A piece that was rebuilt and compared.
    fn piece<'r>(&self, reader: &'r Reader, row: usize, unit: usize) -> Result<&'r [u8], Fault> {
        let place =
            format!("disk {}, row {row}, unit {}", self.disk, reader.batch().unit + unit as u64);
        let piece = reader.piece(self.disk, row, unit);
        piece.ok_or_else(|| Fault::Beyond(format!("{place}: it was not rebuilt")))
    }

    /// Writes what is not there of a unit.
    fn write_unit(
        &mut self,
        label: &Label,
        reader: &Reader,
        unit: usize,
        kept: Kept,
    ) -> Result<(), Fault> {
        self.touch(label)?;
        let geometry = label.geometry;
        let number = reader.batch().unit + unit as u64;
        let first = geometry.stripes_of(number).start;
        for row in (0..geometry.shape.width()).filter(|row| !kept.has(*row)) {
            let piece = self.piece(reader, row, unit)?;
            self.output.write(piece, geometry.cell_at(row, first))?;
        }
        if kept.block {
            return Ok(());
        }
        let one = geometry.batch_of(number, 1);
        write_blocks(&self.output, geometry, one, reader.blocks().block(unit))
    }

    /// Marks a drive that has its label, before the first byte of it is written.
    fn touch(&mut self, label: &Label) -> Result<(), Fault> {
        if !std::mem::take(&mut self.labelled) {
            return Ok(());
        }
        self.output.mark(label, self.disk, label.geometry.image_bytes())
    }

    /// Labels an image whose cells are all there; a drive that has its labels stays as it is.
    pub fn label(&self, label: &Label) -> Result<(), Fault> {
        let mut last = [0; LABEL_BYTES];
        let read = self.output.read(&mut last, label.geometry.end());
        if self.labelled && read.is_ok() && last == label.block(self.disk) {
            return Ok(());
        }
        self.output.label(label, self.disk)
    }
}
