//! Repair in place: just what is bad, to the bytes that the checksums name, one disk after the
//! other, so that a power cut hurts one disk that was bad there already.

use std::sync::Arc;

use crate::fault::Fault;
use crate::os::pace::Pace;
use crate::read::examine::{examine, Findings};
use crate::read::gaps::{self, Gaps};
use crate::read::set::Set;
use crate::write::encode::write_blocks;
use crate::write::output::Output;

/// What a repair did.
#[derive(Default)]
pub struct Repaired {
    pub pieces: u64,
    pub blocks: u64,
    pub labels: u64,
    pub read: u64,
    pub beyond: Gaps,
    /// The disks whose images could not be written, and why.
    pub failed: Vec<(usize, Fault)>,
}

/// The images that are written to, opened when the first bad thing is found in them.
struct Outputs<'a> {
    open: &'a mut dyn FnMut(usize) -> Result<Output, Fault>,
    outputs: Vec<Option<Output>>,
    /// The disks that are not written to any more, and why.
    failed: Vec<(usize, Fault)>,
}

impl Outputs<'_> {
    fn of(&mut self, disk: usize) -> Result<&Output, Fault> {
        let place = &mut self.outputs[disk];
        match place {
            Some(output) => Ok(output),
            None => Ok(place.insert((self.open)(disk)?)),
        }
    }

    /// Does something with a disk's image; where that fails the others go on, and it is left alone
    /// from then on. Says whether it was done.
    fn on(
        &mut self,
        disk: usize,
        step: impl FnOnce(&Output) -> Result<(), Fault>,
    ) -> Result<bool, Fault> {
        if self.failed.iter().any(|(one, _)| *one == disk) {
            return Ok(false);
        }
        match self.of(disk).and_then(step) {
            Ok(()) => Ok(true),
            Err(fault @ Fault::Failed(_)) => {
                self.failed.push((disk, fault));
                Ok(false)
            }
            Err(fault) => Err(fault),
        }
    }
}

/// Rewrites what is bad of the images that are there.
pub fn repair(
    set: &Arc<Set>,
    pace: Pace,
    open: &mut dyn FnMut(usize) -> Result<Output, Fault>,
    mut done: impl FnMut(u64),
) -> Result<Repaired, Fault> {
    let mut account = Repaired::default();
    let disks = set.label.geometry.disks();
    let images = (0..disks).map(|_| None).collect();
    let mut outputs = Outputs { open, outputs: images, failed: Vec::new() };
    for (disk, _) in &set.bad_labels {
        outputs.on(*disk, |_| Ok(()))?; // one that may not be written is refused before another is
    }
    for (disk, at) in &set.bad_labels {
        let label = set.label.block(*disk);
        let done = outputs.on(*disk, |output| {
            output.write(&label, *at)?;
            output.sync()
        })?;
        account.labels += u64::from(done);
    }
    account.read = examine(set, 0, pace, |found| {
        for disk in set.present() {
            mend_disk(set, &found, disk, &mut outputs, &mut account)?;
        }
        done(found.batch.count as u64);
        found.beyond.into_iter().for_each(|one| account.beyond.add(one));
        Ok(())
    })?;
    account.failed = outputs.failed;
    Ok(account)
}

/// Rewrites the bad pieces and checksum blocks of one disk in a batch, and syncs them; nothing in a
/// unit that is beyond repair, where the checksums themselves may be what is wrong.
fn mend_disk(
    set: &Set,
    found: &Findings,
    disk: usize,
    outputs: &mut Outputs,
    account: &mut Repaired,
) -> Result<(), Fault> {
    let geometry = set.label.geometry;
    let stripes = |unit: usize| geometry.stripes_of(found.batch.unit + unit as u64);
    let mended = |unit: usize| gaps::at(&found.beyond, stripes(unit).start).is_none();
    let pieces = found.reader.bad().iter().filter(|bad| bad.disk == disk && mended(bad.unit));
    let blocks = found.blocks.iter().filter(|bad| bad.disk == disk && mended(bad.unit));
    let mut wrote = false;
    for bad in pieces {
        let Some(piece) = found.reader.piece(disk, bad.row, bad.unit) else { continue };
        let at = geometry.cell_at(bad.row, stripes(bad.unit).start);
        let done = outputs.on(disk, |output| output.write(piece, at))?;
        account.pieces += u64::from(done);
        wrote |= done;
    }
    for bad in blocks {
        let one = geometry.batch_of(found.batch.unit + bad.unit as u64, 1);
        let block = found.reader.blocks().block(bad.unit);
        let done = outputs.on(disk, |output| write_blocks(output, geometry, one, block))?;
        account.blocks += u64::from(done);
        wrote |= done;
    }
    if wrote {
        outputs.on(disk, Output::sync)?;
    }
    Ok(())
}
