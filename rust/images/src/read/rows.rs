//! Rows of a batch read from their images and compared with their sums, disks side by side.

use std::collections::BTreeMap;
use std::io;
use std::ops::Range;

use crate::layout::blocks::Blocks;
use crate::layout::cells::Cells;
use crate::layout::geometry::{Batch, Geometry};
use crate::os::pace::Pace;
use crate::os::parallel;
use crate::read::image::{Bounce, BOUNCE};
use crate::read::set::Set;
use crate::read::source::{is_late, late, Source};
use crate::read::wanted::Reading;

/// A row of a disk.
#[derive(Clone, Copy, Debug, PartialEq, Eq, PartialOrd, Ord)]
pub struct Row {
    pub disk: usize,
    pub row: usize,
}

/// For each unit whether its piece fits, if that was compared; the error if the row cannot be read.
pub type Verdict = io::Result<Vec<bool>>;

/// Less than this is not worth a second thread.
const LEAST: usize = 1 << 20;

/// What all reads of a batch share.
struct Job<'a> {
    set: &'a Set,
    geometry: Geometry,
    batch: Batch,
    /// What is compared with; nothing if that is done later.
    blocks: Option<&'a Blocks>,
    source: Option<&'a dyn Source>,
}

/// Rows of a disk that lie together, and their pieces in memory, as they follow one another in the
/// image: row by row, unit by unit.
type Stretch<'b> = (usize, Range<usize>, Vec<&'b mut [u8]>);

/// Reads rows, given disk by disk, to their places.
pub fn read(
    set: &Set,
    cells: &mut Cells,
    blocks: Option<&Blocks>,
    readings: &[Reading],
    bounces: &mut [Bounce],
    pace: &mut Pace,
    source: Option<&dyn Source>,
) -> Vec<(Row, Verdict)> {
    let job = Job { set, geometry: set.label.geometry, batch: cells.batch, blocks, source };
    let stretches = job.stretches(cells, readings);
    let len = |(_, rows, _): &Stretch| rows.len() * job.row_len();
    let bytes: usize = stretches.iter().map(len).sum();
    pace.spend(stretches.iter().map(|stretch| (stretch.0, len(stretch) as u64)));
    if pace.is_limited() || bytes < LEAST {
        let bounce = &mut bounces[0];
        return stretches.into_iter().flat_map(|stretch| job.read(stretch, bounce)).collect();
    }
    let work = |some: Vec<Stretch>, bounce: &mut Bounce| -> Vec<(Row, Verdict)> {
        some.into_iter().flat_map(|stretch| job.read(stretch, bounce)).collect()
    };
    let done = parallel::each(bounces, turns(stretches, set.each_alone()), work);
    let mut done: Vec<(Row, Verdict)> = done.into_iter().flatten().collect();
    done.sort_by_key(|(row, _)| *row);
    done
}

/// Stretches by those that one thread reads: every second one of a device that has two threads of
/// its own, so that none waits for another device; else one.
fn turns(stretches: Vec<Stretch>, each_alone: bool) -> Vec<Vec<Stretch>> {
    if !each_alone {
        return stretches.into_iter().map(|stretch| vec![stretch]).collect();
    }
    let mut turns: BTreeMap<(usize, usize), Vec<Stretch>> = BTreeMap::new();
    for (number, stretch) in stretches.into_iter().enumerate() {
        turns.entry((number % 2, stretch.0)).or_default().push(stretch);
    }
    turns.into_values().collect()
}

impl Job<'_> {
    fn row_len(&self) -> usize {
        self.batch.count * self.geometry.shape.cell_size()
    }

    /// The stretches of the readings, none longer than is read at once.
    fn stretches<'b>(&self, cells: &'b mut Cells, readings: &[Reading]) -> Vec<Stretch<'b>> {
        let (width, disks) = (self.geometry.shape.width(), self.geometry.disks());
        let at_once = if self.set.each_alone() { BOUNCE / 2 } else { BOUNCE };
        let most = (at_once / self.row_len().max(1)).max(1);
        let mut room: Vec<Option<&mut [u8]>> = cells.pieces_mut().into_iter().map(Some).collect();
        let mut done = Vec::new();
        for Reading { disk, rows } in readings {
            for rows in self.geometry.stretches(self.batch, rows.clone()) {
                for first in rows.clone().step_by(most) {
                    let rows = first..(first + most).min(rows.end);
                    let units = 0..self.batch.units;
                    let each =
                        rows.clone().flat_map(|row| units.clone().map(move |unit| (unit, row)));
                    let at = |(unit, row)| (unit * disks + disk) * width + row;
                    let pieces: Vec<&mut [u8]> =
                        each.filter_map(|piece| room.get_mut(at(piece))?.take()).collect();
                    // What was asked for twice is not read here but where it is missed.
                    if pieces.len() == rows.len() * self.batch.units {
                        done.push((*disk, rows, pieces));
                    }
                }
            }
        }
        done
    }

    /// Reads a stretch or, where that fails, its rows one by one.
    fn read(&self, (disk, rows, mut pieces): Stretch, bounce: &mut Bounce) -> Vec<(Row, Verdict)> {
        let whole = self.read_rows(disk, rows.start, &mut pieces, bounce);
        let mut done = Vec::new();
        for (row, pieces) in rows.clone().zip(pieces.chunks_mut(self.batch.units)) {
            let read = match &whole {
                Ok(()) => Ok(()),
                Err(_) if rows.len() > 1 => self.read_rows(disk, row, pieces, bounce),
                Err(error) if is_late(error) => Err(late()),
                Err(error) => Err(error.kind().into()),
            };
            done.push((Row { disk, row }, read.map(|()| self.fits(disk, row, pieces))));
        }
        done
    }

    fn read_rows(
        &self,
        disk: usize,
        row: usize,
        pieces: &mut [&mut [u8]],
        bounce: &mut Bounce,
    ) -> io::Result<()> {
        let Some(image) = self.set.image(disk) else { return Err(io::ErrorKind::NotFound.into()) };
        let mut at = self.geometry.cell_at(row, self.batch.first);
        let Some(source) = self.source else { return image.read_parts(pieces, at, bounce) };
        for piece in pieces {
            source.read(disk, image, piece, at)?;
            at += piece.len() as u64;
        }
        Ok(())
    }

    /// Whether each piece of a row fits its sum.
    fn fits(&self, disk: usize, row: usize, pieces: &[&mut [u8]]) -> Vec<bool> {
        let Some(blocks) = self.blocks else { return Vec::new() };
        let pieces = pieces.iter().enumerate();
        pieces.map(|(unit, piece)| blocks.fits(unit, disk, row, piece)).collect()
    }
}

#[cfg(test)]
mod tests {
    use super::*;

    #[test]
    fn no_device_waits_for_another() {
        let disks = [0, 0, 0, 0, 0, 1, 1, 1, 2, 2, 2, 2, 2, 2, 2, 4, 4];
        let places = disks.into_iter().enumerate();
        let stretches: Vec<Stretch> =
            places.map(|(row, disk)| (disk, row..row + 1, Vec::new())).collect();
        let mut alone = turns(stretches, true);
        assert!(alone.iter().all(|some| some.iter().all(|one| one.0 == some[0].0)));
        let first: Vec<usize> = alone.iter().map(|some| some[0].0).collect();
        assert_eq!(first, [0, 1, 2, 4, 0, 1, 2, 4]); // two threads each, no device at the end
        assert_eq!(alone.iter().map(Vec::len).collect::<Vec<_>>(), [3, 1, 4, 1, 2, 2, 3, 1]);
        let stretches = alone.drain(..).flatten().collect();
        let one_by_one = turns(stretches, false);
        assert!(one_by_one.len() == 17 && one_by_one.iter().all(|some| some.len() == 1));
    }
}
