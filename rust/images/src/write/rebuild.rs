//! The rebuild of lost images, one or two. There is no record of it: what verifies stays.

use std::collections::BTreeSet;
use std::ops::Range;
use std::path::Path;
use std::sync::Arc;

use crate::fault::Fault;
use crate::layout::geometry::{Batch, Geometry, MOST_BYTES};
use crate::os::folder::{folder_of, sync_folder};
use crate::os::pace::Pace;
use crate::read::gaps::Gaps;
use crate::read::reader::Reader;
use crate::read::set::Set;
use crate::read::wanted::Wanted;
use crate::write::spare::{Kept, Spare};

/// What a rebuild did.
#[derive(Default)]
pub struct Rebuilt {
    /// Stripes that were rebuilt now, and those that had been before.
    pub stripes: u64,
    pub kept: u64,
    /// Bytes that were read of the survivors.
    pub read: u64,
    /// Those of the disk of which the most were read.
    pub busiest: u64,
    /// Units in which a survivor was bad.
    pub mended: u64,
    pub beyond: Gaps,
}

/// Rebuilds what is not there of the spares, and labels and names those that are whole then.
pub fn rebuild(
    set: &Arc<Set>,
    spares: &mut [Spare],
    wanted: &Wanted,
    pace: Pace,
    mut done: impl FnMut(u64),
) -> Result<Rebuilt, Fault> {
    let geometry = set.label.geometry;
    let bytes = if pace.is_limited() { 1 } else { MOST_BYTES };
    let mut reader = Reader::new(set.clone(), bytes, pace);
    let mut account = Rebuilt::default();
    let begun = spares.iter().any(Spare::is_begun);
    let mut batches = geometry.batches(0, bytes).peekable();
    reader.ahead(batches.peek().copied().filter(|_| !begun), wanted);
    while let Some(batch) = batches.next() {
        reader.ahead(batches.peek().copied().filter(|_| !begun), wanted);
        let kept = look(geometry, &mut reader, batch, wanted, spares);
        for part in missing(geometry, batch, &kept) {
            let beyond = reader.load(part, wanted)?;
            account.stripes += part.count as u64;
            let units = (part.unit - batch.unit) as usize..(part.end_unit() - batch.unit) as usize;
            for (spare, kept) in spares.iter_mut().zip(&kept) {
                spare.write(&set.label, &reader, &beyond, &kept[units.clone()])?;
            }
            beyond.into_iter().for_each(|one| account.beyond.add(one));
        }
        done(batch.count as u64);
    }
    account.kept = geometry.stripes - account.stripes;
    (account.read, account.busiest) = (reader.read(), reader.busiest());
    account.mended = reader.mended;
    finish(set, spares)?;
    Ok(account)
}

/// What is there of a batch, for each spare by units.
fn look(
    geometry: Geometry,
    reader: &mut Reader,
    batch: Batch,
    wanted: &Wanted,
    spares: &[Spare],
) -> Vec<Vec<Kept>> {
    if !spares.iter().any(Spare::is_begun) {
        return vec![vec![Kept::default(); batch.units]; spares.len()];
    }
    reader.begin(batch, wanted);
    let kept = |spare: &Spare| {
        let units = 0..batch.units;
        units.map(|unit| spare.kept(geometry, batch, reader.blocks(), unit)).collect()
    };
    spares.iter().map(kept).collect()
}

/// The units of a batch that are to be rebuilt, those that follow one another together.
fn missing(geometry: Geometry, batch: Batch, kept: &[Vec<Kept>]) -> Vec<Batch> {
    let is_kept = |unit: usize| kept.iter().all(|units| units[unit].is_whole(geometry));
    let mut parts: Vec<Range<u64>> = Vec::new();
    for unit in (0..batch.units).filter(|unit| !is_kept(*unit)) {
        let number = batch.unit + unit as u64;
        match parts.last_mut() {
            Some(part) if part.end == number => part.end += 1,
            _ => parts.push(number..number + 1),
        }
    }
    parts.into_iter().map(|part| geometry.batch_of(part.start, part.end - part.start)).collect()
}

/// Labels the images whose cells are all there, and gives them their names.
fn finish(set: &Set, spares: &[Spare]) -> Result<(), Fault> {
    if spares.len() > 1 {
        // A label that is torn takes away what the other image may need: that is on the disk first.
        spares.iter().try_for_each(|spare| spare.output.sync())?;
    }
    let whole: Vec<&Spare> = spares.iter().filter(|spare| !spare.lacks()).collect();
    whole.iter().try_for_each(|spare| spare.label(&set.label))?;
    whole.iter().try_for_each(|spare| spare.output.name())?;
    let folders: BTreeSet<&Path> =
        whole.iter().map(|spare| folder_of(spare.output.target())).collect();
    folders.into_iter().try_for_each(sync_folder)
}
