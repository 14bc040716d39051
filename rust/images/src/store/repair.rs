//! The repair of a store: what is bad in the images of every file, and catalogues that differ.

use std::sync::Arc;

use super::board::lacking;
use super::change::Change;
use super::file_gaps::FileGaps;
use super::opened::Store;
use crate::fault::Fault;
use crate::os::pace::Pace;
use crate::read::set::Set;
use crate::watch::Watch;
use crate::write::output::Output;
use crate::write::repair::{repair as repair_images, Repaired};

/// What a repair of a store did.
#[derive(Default)]
pub struct StoreRepaired {
    pub pieces: u64,
    pub blocks: u64,
    pub labels: u64,
    pub read: u64,
    /// The disks that got another catalogue.
    pub catalogues: usize,
    /// The disks on which something is missing, counts as lost, or could not be written.
    pub lost: Vec<usize>,
    pub gaps: FileGaps,
    /// The disks of which images could not be written, and why, each once.
    pub failed: Vec<(usize, Fault)>,
    /// What is to be told of disks that did not get the catalogue, or kept what no catalogue names.
    pub warnings: Vec<String>,
}

/// Repairs a store that is locked.
pub fn repair(store: &Store, pace: &Pace, watch: &mut dyn Watch) -> Result<StoreRepaired, Fault> {
    let mut repaired = StoreRepaired::default();
    for (package, file) in store.catalogue.files() {
        let name = package.shown(file);
        let mut set = match store.set(package, file) {
            Ok(Some(set)) => set,
            Ok(None) => continue,
            Err(Fault::Images(what)) => {
                watch.warn(&what);
                repaired.gaps.gone(&name);
                continue;
            }
            Err(fault) => return Err(fault),
        };
        set.notes().iter().for_each(|note| watch.warn(note));
        repaired.lost.extend(set.lost());
        set.go_direct(); // what check finds bad on the medium may be good in the page cache
        let set = Arc::new(set);
        let done = repair_file(&set, &name, pace, watch)?;
        done.beyond.told(&set).iter().for_each(|text| watch.warn(text));
        repaired.add(&name, done, watch);
    }
    repaired.settle(store)?;
    repaired.lost.extend(lacking(store));
    repaired.lost.sort_unstable();
    repaired.lost.dedup();
    Ok(repaired)
}

/// Repairs the images of one file.
fn repair_file(
    set: &Arc<Set>,
    name: &str,
    pace: &Pace,
    watch: &mut dyn Watch,
) -> Result<Repaired, Fault> {
    let geometry = set.label.geometry;
    let each = geometry.shape.stripe_len() as u64;
    watch.begin(&format!("repair {name}"), each * geometry.stripes);
    let mut open = |disk: usize| match set.image(disk) {
        Some(image) => Output::image(image),
        None => Err(Fault::Failed(format!("{} is gone", set.path(disk).display()))),
    };
    let done = repair_images(set, pace.clone(), &mut open, |stripes| watch.add(stripes * each));
    watch.end();
    done
}

impl StoreRepaired {
    fn add(&mut self, name: &str, done: Repaired, watch: &mut dyn Watch) {
        self.pieces += done.pieces;
        self.blocks += done.blocks;
        self.labels += done.labels;
        self.read += done.read;
        self.gaps.add(name, &done.beyond);
        for (disk, fault) in done.failed {
            watch.warn(&format!("{name}: disk {disk} cannot be repaired: {fault}"));
            if !self.failed.iter().any(|(one, _)| *one == disk) {
                self.failed.push((disk, fault));
            }
        }
    }

    /// Writes the catalogue that counts anew where catalogues differ.
    fn settle(&mut self, store: &Store) -> Result<(), Fault> {
        if store.is_settled() {
            return Ok(());
        }
        let counts = Some(store.catalogue.generation);
        let differs = |disk: &usize| store.generation(*disk) != counts;
        let changed = Change::begin(store)?.commit(store.catalogue.packages.clone())?;
        let has = |disk: &usize| !changed.lack.contains(disk);
        self.catalogues = store.there().into_iter().filter(differs).filter(has).count();
        self.lost.extend(&changed.lack);
        self.warnings = [changed.warnings, changed.leftovers].concat();
        Ok(())
    }
}
