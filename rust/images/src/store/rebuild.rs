//! The rebuild of a store: every image that a disk lacks, then the catalogue on all.

use std::path::Path;

use super::board::lacking;
use super::catalogue::{Entry, Package};
use super::change::{has_leftovers, Change, Changed};
use super::file_gaps::FileGaps;
use super::opened::Store;
use super::refresh::{work, Done};
use crate::fault::Fault;
use crate::names::disk_names;
use crate::os::pace::Pace;
use crate::os::stop;
use crate::watch::Watch;

/// What a rebuild of a store did, or would do.
#[derive(Default)]
pub struct StoreRebuilt {
    pub images: usize,
    /// Stripes that were rebuilt now, and those that had been before.
    pub stripes: u64,
    pub kept: u64,
    /// Bytes that were read of the survivors.
    pub read: u64,
    /// Units in which a survivor was bad.
    pub mended: u64,
    pub gaps: FileGaps,
    /// The disks that could not be written, and why, each once.
    pub failed: Vec<(usize, Fault)>,
    /// The change that it ended with; none if nothing was lacking, or nothing was written.
    pub changed: Option<Changed>,
}

/// Rebuilds what the disks of a store lack that is locked. An old drive's folder is read first.
pub fn rebuild(
    store: &Store,
    from: Option<&Path>,
    pace: &Pace,
    watch: &mut dyn Watch,
) -> Result<StoreRebuilt, Fault> {
    let mut rebuilt = StoreRebuilt::default();
    if is_done(store, from)? {
        return Ok(rebuilt);
    }
    stop::says("what is rebuilt stays; the same command goes on");
    let change = Change::begin(store)?;
    for (package, file) in store.catalogue.files() {
        // Twice where an old drive has one disk's image and another disk lacks its own.
        if rebuilt.file(&change, package, file, from, pace, watch)? {
            rebuilt.file(&change, package, file, from, pace, watch)?;
        }
    }
    let mut changed = change.commit(store.catalogue.packages.clone())?;
    also_lack(store, &mut changed, &rebuilt.failed);
    rebuilt.changed = Some(changed);
    Ok(rebuilt)
}

/// Counts the disks as lacking that still lack an image, or could not be written.
fn also_lack(store: &Store, changed: &mut Changed, failed: &[(usize, Fault)]) {
    changed.lack.extend(lacking(store).into_iter().chain(failed.iter().map(|(disk, _)| *disk)));
    changed.lack.sort_unstable();
    changed.lack.dedup();
    changed.lacking = disk_names(store.numbers().shape, &changed.lack);
}

/// What a rebuild would read of cells, if nothing of it is there yet.
pub fn would_rebuild(store: &Store, from: Option<&Path>) -> Result<StoreRebuilt, Fault> {
    let mut rebuilt = StoreRebuilt::default();
    for (package, file) in store.catalogue.files() {
        if let Some(work) = work(store, package, file, from, &store.there())? {
            let stripes = work.set.label.geometry.stripes;
            rebuilt.images += work.disks.len();
            rebuilt.stripes += stripes;
            rebuilt.read += work.each() * stripes;
        }
    }
    Ok(rebuilt)
}

/// Whether every disk is there and lacks nothing, so that there is nothing to change.
fn is_done(store: &Store, from: Option<&Path>) -> Result<bool, Fault> {
    let all = store.is_settled() && store.there().len() == store.disks.len();
    if !all || has_leftovers(store)? {
        return Ok(false);
    }
    for (package, file) in store.catalogue.files() {
        if !matches!(work(store, package, file, from, &store.there()), Ok(None)) {
            return Ok(false);
        }
    }
    Ok(true)
}

impl StoreRebuilt {
    /// Rebuilds images of a file; says whether there may be more to do.
    fn file(
        &mut self,
        change: &Change,
        package: &Package,
        file: &Entry,
        from: Option<&Path>,
        pace: &Pace,
        watch: &mut dyn Watch,
    ) -> Result<bool, Fault> {
        let name = package.shown(file);
        let work = match work(change.store, package, file, from, change.disks()) {
            Ok(Some(work)) => work,
            Ok(None) => return Ok(false),
            Err(Fault::Images(what)) => {
                watch.warn(&what);
                self.gaps.gone(&name);
                return Ok(false);
            }
            Err(fault) => return Err(fault),
        };
        let each = work.each();
        watch.begin(&format!("rebuild {name}"), each * work.set.label.geometry.stripes);
        let done = work.run(change.store, pace.clone(), |stripes| watch.add(stripes * each));
        watch.end();
        let Done { rebuilt, images, failed } = done?;
        self.stripes += rebuilt.stripes;
        self.kept += rebuilt.kept;
        self.read += rebuilt.read;
        self.mended += rebuilt.mended;
        let more = failed.is_empty();
        self.fail(&name, failed, watch);
        if rebuilt.beyond.is_empty() {
            self.images += images;
            return Ok(more);
        }
        rebuilt.beyond.told(&work.set).iter().for_each(|text| watch.warn(text));
        self.gaps.add(&name, &rebuilt.beyond);
        Ok(false)
    }

    /// Tells of disks on which a file's image could not be written.
    fn fail(&mut self, name: &str, failed: Vec<(usize, Fault)>, watch: &mut dyn Watch) {
        for (disk, fault) in failed {
            watch.warn(&format!("{name}: disk {disk} is left out: {fault}"));
            if !self.failed.iter().any(|(one, _)| *one == disk) {
                self.failed.push((disk, fault));
            }
        }
    }
}
