//! The images that disks of a store lack, rebuilt file by file.

use std::path::Path;
use std::sync::Arc;

use super::catalogue::{Entry, Package};
use super::opened::Store;
use crate::fault::Fault;
use crate::layout::label::{hex, Found, Label};
use crate::os::files::can_open;
use crate::os::folder::shown;
use crate::os::pace::Pace;
use crate::os::sys;
use crate::read::image::Image;
use crate::read::set::Set;
use crate::read::wanted::{Reading, Wanted};
use crate::read::way::Choice;
use crate::write::rebuild::{rebuild, Rebuilt};
use crate::write::spare::Spare;

/// The rebuild of one file's images.
pub struct Work {
    pub set: Arc<Set>,
    /// The disks whose images are written.
    pub disks: Vec<usize>,
    pub wanted: Wanted,
}

/// What is to be done for a file: nothing if every one of these disks has its image. An old drive's
/// folder is read first, where it has the image of one of these disks; one that is cut short is read
/// where nothing else is left.
pub fn work(
    store: &Store,
    package: &Package,
    file: &Entry,
    from: Option<&Path>,
    disks: &[usize],
) -> Result<Option<Work>, Fault> {
    let Some(label) = file.label(store.numbers()) else { return Ok(None) };
    let old = from.and_then(|folder| old_image(store, folder, &label));
    let old = old.filter(|(disk, _)| disks.contains(disk));
    let Some(set) = store.set_with(package, file, old.clone())? else { return Ok(None) };
    if let Some((disk, _)) = old.filter(|(disk, _)| set.image(*disk).is_some()) {
        let rows = 0..label.geometry.shape.width();
        let wanted = Wanted::cells(vec![Reading { disk, rows }]);
        return Ok(Some(Work { set: Arc::new(set), disks: vec![disk], wanted }));
    }
    let disks: Vec<usize> = set.lost().into_iter().filter(|disk| disks.contains(disk)).collect();
    if disks.is_empty() {
        return Ok(None);
    }
    let wanted = Wanted::rebuild(&set, &set.lost(), &Choice::Unasked)?;
    Ok(Some(Work { set: Arc::new(set), disks, wanted }))
}

/// The image in an old drive's folder of a disk that is there and has none.
fn old_image(store: &Store, folder: &Path, label: &Label) -> Option<(usize, std::path::PathBuf)> {
    let path = folder.join(format!("{}.img", hex(&label.set)));
    let image = Image::open(&path).ok()?;
    match Found::of(&image.block(0).ok()?) {
        Found::Image(own, disk)
            if own == *label && store.disk(disk).is_some() && !store.has_image(disk, label) =>
        {
            Some((disk, path))
        }
        _ => None,
    }
}

impl Work {
    /// The bytes of cells that it reads of a stripe.
    pub fn each(&self) -> u64 {
        (self.wanted.reads() * self.set.label.geometry.shape.cell_size()) as u64
    }

    /// Rebuilds, or goes on with it: what verifies of a part stays. Where a disk cannot be written the
    /// others go on.
    pub fn run(&self, store: &Store, pace: Pace, done: impl FnMut(u64)) -> Result<Done, Fault> {
        let mut all = Done::default();
        let mut spares = Vec::new();
        for disk in &self.disks {
            match self.spare(store, *disk) {
                Ok(spare) => spares.push(spare),
                Err(fault) => {
                    can_open(&store.folder)?;
                    all.failed.push((*disk, fault));
                }
            }
        }
        match &spares[..] {
            [] => {}
            [one] => all.add(one.disk, rebuild(&self.set, &mut spares, &self.wanted, pace, done)),
            _ => match rebuild(&self.set, &mut spares, &self.wanted, pace.clone(), done) {
                Ok(rebuilt) => (all.images, all.rebuilt) = (spares.len(), rebuilt),
                Err(_) => {
                    drop(spares); // which of them it was is not known
                    self.one_by_one(store, pace, &mut all);
                }
            },
        }
        Ok(all)
    }

    /// Rebuilds the disks that have not failed each for itself.
    fn one_by_one(&self, store: &Store, pace: Pace, all: &mut Done) {
        let failed: Vec<usize> = all.failed.iter().map(|(disk, _)| *disk).collect();
        for disk in self.disks.iter().filter(|disk| !failed.contains(disk)) {
            let spare = self.spare(store, *disk);
            let pace = pace.clone();
            let done = spare
                .and_then(|spare| rebuild(&self.set, &mut [spare], &self.wanted, pace, |_| ()));
            all.add(*disk, done);
        }
    }

    /// The image of a disk, marked, with the room that it takes.
    fn spare(&self, store: &Store, disk: usize) -> Result<Spare, Fault> {
        let label = &self.set.label;
        let mut spare = spare(store, label, disk)?;
        spare.mark(label)?;
        reserve(&spare, label)?;
        Ok(spare)
    }
}

/// What came of the rebuild of one file's images.
#[derive(Default)]
pub struct Done {
    pub rebuilt: Rebuilt,
    /// The images that were written.
    pub images: usize,
    /// The disks that could not be written, and why.
    pub failed: Vec<(usize, Fault)>,
}

impl Done {
    /// Adds what came of one disk.
    fn add(&mut self, disk: usize, done: Result<Rebuilt, Fault>) {
        match done {
            Ok(rebuilt) => {
                let before = std::mem::replace(&mut self.rebuilt, rebuilt);
                self.rebuilt.read += before.read;
                self.rebuilt.mended += before.mended;
                self.images += 1;
            }
            Err(fault) => self.failed.push((disk, fault)),
        }
    }
}

/// Takes the room of an image, of which a part may be there.
fn reserve(spare: &Spare, label: &Label) -> Result<(), Fault> {
    let path = spare.output.path();
    match spare.output.reserve(label.geometry.image_bytes()) {
        Err(error) if sys::is_full(&error) => Err(Fault::No(format!(
            "{}: it does not fit; give the disk more room and run it again",
            shown(path).display()
        ))),
        reserved => reserved.map_err(|error| Fault::path(path, error)),
    }
}

/// Begins a disk's image, or goes on with it. A part with the name of the set that is none of it is
/// refused: film may need the rest of it.
fn spare(store: &Store, label: &Label, disk: usize) -> Result<Spare, Fault> {
    let path = store.held_image(disk, &label.set)?;
    Spare::file(&path, label, disk)
}
