//! The checksum blocks of a batch: read from the disk of which the least is, and compared on all.

use std::ops::Range;

use super::{Known, Reader};
use crate::layout::geometry::Batch;
use crate::os::parallel;
use crate::read::image::{Bounce, Image};
use crate::read::wanted::Wanted;

/// About the most memory for checksum blocks that are read side by side, and the threads that do so
/// whatever they take.
const BLOCKS_AT_ONCE: usize = 4 << 20;
const LEAST_THREADS: usize = 4;

impl Reader {
    /// Reads the checksum blocks of a batch; what is in memory of the same batch stays.
    pub fn begin(&mut self, batch: Batch, wanted: &Wanted) {
        // What was late is asked for again.
        if self.cells.batch == batch && self.source.is_none() {
            return;
        }
        if self.cells.batch != batch {
            self.cells.batch = batch;
            self.states = vec![Known::Unread; batch.units * self.pieces()];
            self.holes.clear();
            self.bad.clear();
            self.flawed = vec![false; batch.units];
            self.blocks.clear(batch);
        }
        let set = self.set.clone();
        let there =
            wanted.quietest(&set).into_iter().filter_map(|disk| Some((disk, set.image(disk)?)));
        let all: Vec<(usize, &Image)> = there.chain(set.remnants()).collect();
        // Who asks somebody else goes through all that answer soon before it waits for one.
        let turns = if self.source.is_some() { [true, false].as_slice() } else { &[false] };
        for soon in turns {
            for (disk, image) in &all {
                let unknown: Vec<usize> = self.blocks.unknown().collect();
                let (Some(first), Some(last)) = (unknown.first(), unknown.last()) else { return };
                self.read_blocks(*disk, image, *first..last + 1, *soon);
            }
        }
    }

    /// Reads the blocks of units from the image of a disk.
    fn read_blocks(&mut self, disk: usize, image: &Image, units: Range<usize>, soon: bool) {
        let len = self.geometry.block_len();
        let at = self.geometry.block_at(self.cells.batch.unit + units.start as u64);
        let mut bytes = vec![0; units.len() * len];
        let read = match &self.source {
            Some(source) if soon => source.soon(disk, image, &mut bytes, at),
            Some(source) => source.read(disk, image, &mut bytes, at),
            None => image.read(&mut bytes, at, &mut self.bounces[0]),
        };
        if read.is_err() {
            return;
        }
        self.count(disk, bytes.len());
        for (unit, block) in units.zip(bytes.chunks_exact(len)) {
            if !self.blocks.is_known(unit) {
                self.blocks.take(unit, block);
            }
        }
    }

    /// The blocks of the batch, by disk and unit, that are not the ones that are known, or that
    /// something else than zeros follows.
    pub fn bad_blocks(&mut self) -> Vec<(usize, usize)> {
        let (len, batch) = (self.geometry.block_len(), self.cells.batch);
        let all = self.geometry.blocks_len(batch);
        let (set, blocks) = (self.set.clone(), &self.blocks);
        let at = self.geometry.block_at(batch.unit);
        let look = |disk: usize, bounce: &mut Bounce| -> Vec<(usize, usize)> {
            let mut bytes = vec![0; all];
            let image = set.image(disk);
            let read = image.is_some_and(|image| image.read(&mut bytes, at, bounce).is_ok());
            let (bytes, zeros) = bytes.split_at(batch.units * len);
            let ended = |unit: usize| unit + 1 < batch.units || zeros.iter().all(|zero| *zero == 0);
            let bad = |unit: &usize| {
                let same = &bytes[unit * len..(unit + 1) * len] == blocks.block(*unit);
                blocks.is_known(*unit) && !(read && same && ended(*unit))
            };
            (0..batch.units).filter(bad).map(|unit| (disk, unit)).collect()
        };
        let disks: Vec<usize> = set.present().collect();
        let threads = (BLOCKS_AT_ONCE / all).max(LEAST_THREADS).min(self.bounces.len());
        let mut bad = parallel::each(&mut self.bounces[..threads], disks, look).concat();
        bad.sort();
        set.present().for_each(|disk| self.read[disk] += all as u64);
        self.pace.spend(set.present().map(|disk| (disk, all as u64)));
        bad
    }
}
