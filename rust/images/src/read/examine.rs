//! Every byte of the images that are there compared with its checksum: for check and repair.

use std::sync::Arc;

use cuzhaveli::{Refusal, Scrub};

use crate::fault::Fault;
use crate::layout::geometry::{Batch, MOST_BYTES};
use crate::os::pace::Pace;
use crate::os::parallel;
use crate::read::gaps::Beyond;
use crate::read::reader::Reader;
use crate::read::set::Set;
use crate::read::wanted::Wanted;

/// A checksum block of an image that is not the unit's.
#[derive(Clone, Copy, Debug, PartialEq, Eq)]
pub struct BadBlock {
    pub disk: usize,
    /// By its place in the batch.
    pub unit: usize,
}

/// What was found in a batch, which the reader has in memory, mended.
pub struct Findings<'f> {
    pub reader: &'f Reader,
    /// Memory for a stripe, for each thread.
    stripes: &'f mut [Vec<u8>],
    pub batch: Batch,
    pub blocks: Vec<BadBlock>,
    pub beyond: Vec<Beyond>,
}

impl Findings<'_> {
    /// The stripes whose cells all fit their sums and not their parity: only where no disk is lost.
    pub fn dirty(&mut self) -> Result<Vec<(u64, Scrub)>, Refusal> {
        let geometry = self.reader.geometry();
        let (reader, batch) = (self.reader, self.batch);
        let sound = (0..batch.units).filter(|unit| reader.is_sound(*unit));
        let places: Vec<usize> = sound.flat_map(|unit| geometry.places(batch, unit)).collect();
        let scrub = |places: Vec<usize>, stripe: &mut Vec<u8>| {
            let mut dirty = Vec::new();
            for place in places {
                reader.cells().stripe(place, stripe);
                match geometry.shape.scrub(stripe)? {
                    Scrub::Clean => {}
                    verdict => dirty.push((batch.first + place as u64, verdict)),
                }
            }
            Ok(dirty)
        };
        let some: Vec<Vec<usize>> =
            places.chunks(places.len().div_ceil(2).max(1)).map(Vec::from).collect();
        let found = parallel::each(self.stripes, some, scrub);
        let mut dirty = found.into_iter().collect::<Result<Vec<_>, Refusal>>()?.concat();
        dirty.sort_by_key(|(stripe, _)| *stripe);
        Ok(dirty)
    }
}

/// Goes through all units from one on; gives the bytes that were read.
pub fn examine(
    set: &Arc<Set>,
    first: u64,
    pace: Pace,
    mut each: impl FnMut(Findings) -> Result<(), Fault>,
) -> Result<u64, Fault> {
    let geometry = set.label.geometry;
    let bytes = if pace.is_limited() { 1 } else { MOST_BYTES };
    let wanted = Wanted::all(set);
    let mut reader = Reader::new(set.clone(), bytes, pace);
    let mut stripes = [(); 2].map(|()| vec![0; geometry.shape.stripe_len()]);
    let mut batches = geometry.batches(first, bytes).peekable();
    reader.ahead(batches.peek().copied(), &wanted);
    while let Some(batch) = batches.next() {
        reader.ahead(batches.peek().copied(), &wanted);
        let beyond = reader.load(batch, &wanted)?;
        let bad = reader.bad_blocks();
        let blocks = bad.into_iter().map(|(disk, unit)| BadBlock { disk, unit }).collect();
        each(Findings { reader: &reader, stripes: &mut stripes, batch, blocks, beyond })?;
    }
    Ok(reader.read())
}
