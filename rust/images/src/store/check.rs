//! The check of a store: its disks, and every byte of the images of every file.

use std::sync::Arc;

use super::catalogue::{Entry, Package};
use super::opened::Store;
use crate::fault::Fault;
use crate::os::files::can_open;
use crate::os::pace::Pace;
use crate::read::examine::{examine, Findings};
use crate::read::set::Set;
use crate::watch::Watch;

/// What is wrong with a disk of a store.
#[derive(Clone, Copy, Debug, PartialEq, Eq)]
pub enum DiskFlaw {
    /// It is not there.
    Lost,
    /// It lacks the last change; the generation that it has, 0 for none.
    Stale(u64),
    /// It has a change that was cut off.
    Ahead(u64),
}

/// Who hears what a check finds, as it is found: there may be more than memory holds.
pub trait Inspector {
    fn disk(&mut self, disk: usize, flaw: DiskFlaw) -> Result<(), Fault>;
    /// A file is checked now; what follows is of it.
    fn file(&mut self, name: String);
    /// Too much of the file is lost.
    fn gone(&mut self) -> Result<(), Fault>;
    /// A disk that is there lacks its image of the file.
    fn missing(&mut self, disk: usize) -> Result<(), Fault>;
    /// The images of the file before they are read, with their bad labels; the disks for which the
    /// page cache may answer, not the medium.
    fn images(&mut self, set: &Set, cached: &[usize]) -> Result<(), Fault>;
    fn batch(&mut self, found: &mut Findings) -> Result<(), Fault>;
}

/// What a check of a store went through.
#[derive(Default)]
pub struct StoreChecked {
    /// The disks that are not there.
    pub away: Vec<usize>,
    /// The number of those that lack the last change.
    pub stale: usize,
    /// The images that are not there on disks that are.
    pub missing: u64,
    pub stripes: u64,
    pub read: u64,
}

/// Checks a store.
pub fn check(
    store: &Store,
    pace: &Pace,
    inspector: &mut dyn Inspector,
    watch: &mut dyn Watch,
) -> Result<StoreChecked, Fault> {
    let away = (0..store.disks.len()).filter(|disk| store.disk(*disk).is_none()).collect();
    let mut checked = StoreChecked { away, stale: store.stale().len(), ..StoreChecked::default() };
    for (disk, flaw) in flaws(store, &checked.away) {
        inspector.disk(disk, flaw)?;
    }
    for (package, file) in store.catalogue.files() {
        inspector.file(package.shown(file));
        let found = store.set(package, file);
        if lacks(store, &found) && is_changed(store, package, file) {
            let shown = package.shown(file);
            watch.warn(&format!("{shown} was changed or removed while the store was checked"));
            continue;
        }
        let set = match found {
            Ok(Some(set)) => set,
            Ok(None) => continue,
            Err(Fault::Images(what)) => {
                watch.warn(&what);
                inspector.gone()?;
                continue;
            }
            Err(fault) => return Err(fault),
        };
        set.notes().iter().for_each(|note| watch.warn(note));
        for disk in set.lost().into_iter().filter(|disk| store.disk(*disk).is_some()) {
            inspector.missing(disk)?;
            checked.missing += 1;
        }
        let what = format!("check {}", package.shown(file));
        checked.images(set, &what, pace, inspector, watch)?;
    }
    Ok(checked)
}

/// Whether an image is gone of a disk that is there.
fn lacks(store: &Store, found: &Result<Option<Set>, Fault>) -> bool {
    match found {
        Ok(Some(set)) => set.lost().into_iter().any(|disk| store.disk(disk).is_some()),
        Err(fault) => matches!(fault, Fault::Images(_)),
        Ok(None) => false,
    }
}

/// Whether the store has another file by now, so that the images of this one are not missed.
fn is_changed(store: &Store, package: &Package, file: &Entry) -> bool {
    Store::open(&store.folder).is_ok_and(|now| {
        now.catalogue.package(&package.name).is_none_or(|one| !one.files.contains(file))
    })
}

/// What is wrong with the disks: those not there, those behind, those ahead.
fn flaws(store: &Store, away: &[usize]) -> Vec<(usize, DiskFlaw)> {
    let generation = |disk: usize| store.generation(disk).unwrap_or(0);
    let lost = away.iter().map(|disk| (*disk, DiskFlaw::Lost));
    let stale = store.stale().into_iter();
    let stale = stale.map(|disk| (disk, DiskFlaw::Stale(generation(disk))));
    let ahead = store.there().into_iter().filter(|disk| store.is_ahead(*disk));
    let ahead = ahead.map(|disk| (disk, DiskFlaw::Ahead(generation(disk))));
    lost.chain(stale).chain(ahead).collect()
}

impl StoreChecked {
    /// Checks the images of a file, from the medium where that can be had.
    fn images(
        &mut self,
        mut set: Set,
        what: &str,
        pace: &Pace,
        inspector: &mut dyn Inspector,
        watch: &mut dyn Watch,
    ) -> Result<(), Fault> {
        let cached = set.go_direct();
        if !cached.is_empty() {
            can_open(set.folder())?;
        }
        inspector.images(&set, &cached)?;
        let geometry = set.label.geometry;
        let each = geometry.shape.stripe_len() as u64;
        watch.begin(what, each * geometry.stripes);
        self.read += examine(&Arc::new(set), 0, pace.clone(), |mut found| {
            inspector.batch(&mut found)?;
            watch.add(found.batch.count as u64 * each);
            Ok(())
        })?;
        watch.end();
        self.stripes += geometry.stripes;
        Ok(())
    }
}
