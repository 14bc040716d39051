//! A film to the images of a new set.

use std::io::{self, ErrorKind, Read};
use std::thread;

use crate::fault::Fault;
use crate::layout::blocks::Blocks;
use crate::layout::cells::Cells;
use crate::layout::geometry::{Batch, Geometry, MOST_BYTES};
use crate::layout::label::Label;
use crate::layout::sums::SetName;
use crate::write::output::Output;

/// A film, and its length if that is known before its end.
pub struct Source<R> {
    pub film: R,
    pub length: Option<u64>,
    /// What messages call it.
    pub name: String,
}

impl<R: Read> Source<R> {
    /// Fills the bytes as far as the film goes.
    fn fill(&mut self, at: u64, bytes: &mut [u8]) -> Result<usize, Fault> {
        let mut done = 0;
        while done < bytes.len() {
            match self.film.read(&mut bytes[done..]) {
                Ok(0) => break,
                Ok(more) => done += more,
                Err(error) if error.kind() == ErrorKind::Interrupted => {}
                Err(error) => return Err(self.fault(at + done as u64, &error)),
            }
        }
        Ok(done)
    }

    fn fault(&self, byte: u64, error: &io::Error) -> Fault {
        Fault::Failed(format!("{}, byte {byte}: {error}", self.name))
    }

    fn changed(&self) -> Fault {
        Fault::Failed(format!(
            "{}: its length changed while it was read, or is over 2^48 bytes; encode it again",
            self.name
        ))
    }
}

/// Writes the cells and checksum blocks of a film; gives the label of the set, which is not written
/// yet.
pub fn encode<R: Read>(
    source: &mut Source<R>,
    set: SetName,
    geometry: Geometry,
    outputs: &[Output],
    done: impl FnMut(u64),
) -> Result<Label, Fault> {
    let write = |geometry, part: Part| {
        let mut all = outputs.iter().enumerate();
        all.try_for_each(|(disk, output)| part.write(output, disk, geometry))
    };
    encode_to(source, set, geometry, write, done)
}

/// What is written of a batch to each image: its cells, then its checksum blocks.
#[derive(Clone, Copy)]
pub enum Part<'a> {
    Cells(&'a Cells),
    Blocks(Batch, &'a Blocks),
}

impl Part<'_> {
    pub fn write(self, output: &Output, disk: usize, geometry: Geometry) -> Result<(), Fault> {
        match self {
            Part::Cells(cells) => write_cells(output, disk, geometry, cells),
            Part::Blocks(batch, blocks) => write_blocks(output, geometry, batch, blocks.all()),
        }
    }
}

/// Writes a batch; its sums are computed while its cells are written.
fn write_parts(
    geometry: Geometry,
    cells: &Cells,
    blocks: &mut Blocks,
    mut write: impl FnMut(Geometry, Part) -> Result<(), Fault>,
) -> Result<(), Fault> {
    blocks.clear(cells.batch);
    let mut sealed = None;
    thread::scope(|scope| {
        let seal = || sealed = Some(blocks.seal(cells));
        let _ = thread::Builder::new().spawn_scoped(scope, seal);
        write(geometry, Part::Cells(cells))
    })?;
    match sealed {
        Some(sealed) => sealed?,
        None => blocks.seal(cells)?, // no second thread could be had
    }
    write(geometry, Part::Blocks(cells.batch, blocks))
}

/// The same, with each part of a batch handed on to be written.
pub fn encode_to<R: Read>(
    source: &mut Source<R>,
    set: SetName,
    geometry: Geometry,
    mut write: impl FnMut(Geometry, Part) -> Result<(), Fault>,
    mut done: impl FnMut(u64),
) -> Result<Label, Fault> {
    let mut geometry = geometry;
    // Of a film without a known length a whole group is held, since it may be the short last one.
    let bytes = if source.length.is_some() { MOST_BYTES } else { u64::MAX };
    let (mut cells, mut blocks) = (Cells::new(geometry, bytes), Blocks::new(set, geometry));
    let mut stripe = vec![0; geometry.shape.stripe_len()];
    let (mut length, mut unit) = (0, 0);
    while unit < geometry.units() {
        cells.batch = geometry.batch(unit, bytes);
        let filled = fill(source, geometry, length, &mut stripe, &mut cells)?;
        let full = (cells.batch.count * geometry.shape.data_len()) as u64;
        length += filled;
        if filled < full && source.length.is_none() {
            geometry = geometry.with_length(length).ok_or_else(|| source.changed())?;
            if geometry.units() <= unit {
                break;
            }
            cells.shorten(geometry.batch(unit, bytes));
        } else if filled < full && length < geometry.length {
            return Err(source.changed());
        }
        write_parts(geometry, &cells, &mut blocks, &mut write)?;
        unit = cells.batch.end_unit();
        done(filled);
    }
    if source.length.is_none_or(|known| known == length) && source.fill(length, &mut [0])? == 0 {
        let geometry = geometry.with_length(length).ok_or_else(|| source.changed())?;
        return Ok(Label { set, geometry });
    }
    Err(source.changed())
}

/// Reads film to the stripes of a batch, with zeros after its end, and encodes them; gives the
/// bytes of film.
fn fill<R: Read>(
    source: &mut Source<R>,
    geometry: Geometry,
    length: u64,
    stripe: &mut [u8],
    cells: &mut Cells,
) -> Result<u64, Fault> {
    let shape = geometry.shape;
    let mut filled = 0;
    for place in 0..cells.batch.count {
        let here = source.fill(length + filled, &mut stripe[..shape.data_len()])?;
        if here == 0 {
            break;
        }
        stripe[here..shape.data_len()].fill(0);
        shape.encode(stripe)?;
        for disk in 0..geometry.disks() {
            cells.put(disk, place, &stripe[shape.disk_range(disk)]);
        }
        filled += here as u64;
        if here < shape.data_len() {
            break;
        }
    }
    Ok(filled)
}

fn write_cells(
    output: &Output,
    disk: usize,
    geometry: Geometry,
    cells: &Cells,
) -> Result<(), Fault> {
    for rows in geometry.stretches(cells.batch, 0..geometry.shape.width()) {
        let at = geometry.cell_at(rows.start, cells.batch.first);
        let units = 0..cells.batch.units;
        let each = rows.flat_map(|row| units.clone().map(move |unit| (row, unit)));
        let pieces: Vec<&[u8]> = each.map(|(row, unit)| cells.piece(disk, row, unit)).collect();
        output.write_parts(&pieces, at)?;
    }
    Ok(())
}

/// Writes checksum blocks of units that follow one another.
pub fn write_blocks(
    output: &Output,
    geometry: Geometry,
    batch: Batch,
    blocks: &[u8],
) -> Result<(), Fault> {
    let at = geometry.block_at(batch.unit);
    let mut bytes = blocks.to_vec();
    bytes.resize(geometry.blocks_len(batch), 0);
    output.write(&bytes, at)
}
