//! A new store over empty folders, and a new disk of one.

use std::fs;
use std::io::ErrorKind;
use std::os::unix::fs::MetadataExt;
use std::path::Path;
use std::rc::Rc;

use super::catalogue::{self, Catalogue, Numbers};
use super::change::{Change, Changed};
use super::disk_file;
use super::opened::Store;
use super::place::{disk_path, lock_all, Disk, DiskFolder, Places, There};
use super::replace;
use crate::fault::Fault;
use crate::read::set::MOST_DISKS;

/// What a creation that was cut off may leave.
const OURS: [&str; 4] = [disk_file::NAME, "disk.new", catalogue::NAME, "catalogue.new"];

/// A store that was created.
pub struct Created {
    pub disks: usize,
    pub changed: Changed,
}

/// Creates a store in a folder that is locked.
pub fn create(folder: &Path, numbers: Numbers, waits: impl FnOnce()) -> Result<Created, Fault> {
    let fresh = fresh(folder, numbers, waits)?;
    let changed = Change::begin(&fresh)?.commit(Vec::new())?;
    Ok(Created { disks: fresh.disks.len(), changed })
}

/// A store that has no catalogue yet, over the disks' folders, which are made if they may be on one
/// device.
fn fresh(folder: &Path, numbers: Numbers, waits: impl FnOnce()) -> Result<Store, Fault> {
    is_no_store(folder)?;
    let count = numbers.shape.disks() + 2;
    for beyond in (count..MOST_DISKS).map(|disk| disk_path(folder, disk)) {
        if beyond.symlink_metadata().is_ok() {
            return Err(Fault::Failed(format!(
                "{} is there, and the store has {count} disks; take it away, or give another -k",
                beyond.display()
            )));
        }
    }
    let places = open_all(folder, count, !numbers.separate)?;
    lock_all(places.iter(), waits)?;
    is_no_store(folder)?; // another creation may have ended meanwhile
    let mut disks: Vec<Disk> = Vec::new();
    for place in &places {
        is_vacant(place)?;
        is_apart(folder, numbers.separate, place, &disks)?;
        disks.push(Disk::There(There { folder: place.clone(), promise: 0, copy: None }));
    }
    let catalogue = Rc::new(Catalogue { numbers, generation: 0, packages: Vec::new() });
    let places = Places(places.into_iter().map(Ok).collect());
    Ok(Store { folder: folder.into(), catalogue, disks, highest: 0, places })
}

fn is_no_store(folder: &Path) -> Result<(), Fault> {
    match Store::open(folder) {
        Ok(_) => Err(Fault::Failed(format!("{} is a store already", folder.display()))),
        Err(_) => Ok(()),
    }
}

/// Opens the folders of the disks, which are made before if that is wanted.
fn open_all(folder: &Path, count: usize, made: bool) -> Result<Vec<Rc<DiskFolder>>, Fault> {
    let mut places = Vec::new();
    for path in (0..count).map(|disk| disk_path(folder, disk)) {
        if made {
            make(&path)?;
        }
        let place = DiskFolder::open(&path).map_err(|error| nowhere(&path, &error.to_string()))?;
        places.push(Rc::new(place));
    }
    Ok(places)
}

fn make(path: &Path) -> Result<(), Fault> {
    match fs::create_dir(path) {
        Err(error) if error.kind() != ErrorKind::AlreadyExists => Err(Fault::path(path, error)),
        _ => Ok(()),
    }
}

fn nowhere(path: &Path, what: &str) -> Fault {
    Fault::Failed(format!("{}: {what}; mount a disk there, or link it to one", path.display()))
}

/// Takes a new, empty disk into a store, in the place of one that is not there.
pub fn add(store: &mut Store, disk: usize) -> Result<(), Fault> {
    store.numbers().shape.plan(disk)?; // the library refuses a disk that the array lacks
    if store.disk(disk).is_some() {
        return Ok(()); // it was taken before, and the rebuild cut off
    }
    let place = match store.places.0.get(disk) {
        Some(Ok(folder)) => folder.clone(),
        Some(Err(what)) => return Err(nowhere(&disk_path(&store.folder, disk), what)),
        None => return Err(nowhere(&disk_path(&store.folder, disk), "is not there")),
    };
    let names = place.names().map_err(|error| Fault::path(&place.path, error))?;
    if let Some(name) = names.iter().find(|name| *name != "disk.new") {
        return Err(Fault::Failed(format!(
            "{} is not empty: {name} is there; a new disk is empty",
            place.path.display()
        )));
    }
    is_apart(&store.folder, store.numbers().separate, &place, &store.disks)?;
    store.disks[disk] = Disk::There(There { folder: place, promise: 0, copy: None });
    Ok(())
}

/// Refuses a folder with anything but what a creation that was cut off leaves.
fn is_vacant(place: &DiskFolder) -> Result<(), Fault> {
    let names = place.names().map_err(|error| Fault::path(&place.path, error))?;
    let path = place.below(catalogue::NAME);
    let begun = match replace::read(&path, catalogue::MOST_BYTES) {
        Ok(text) => Catalogue::parse(&text)
            .is_some_and(|one| one.generation <= 1 && one.packages.is_empty()),
        Err(error) => error.kind() == ErrorKind::NotFound,
    };
    match names.iter().find(|name| !begun || !OURS.contains(&name.as_str())) {
        None => Ok(()),
        Some(name) => Err(Fault::Failed(format!(
            "{} is not empty: {name} is there; the disks of a new store are empty",
            place.path.display()
        ))),
    }
}

/// Refuses a folder that is another disk's, or on a device of another or of the store's folder.
pub(super) fn is_apart(
    store: &Path,
    separate: bool,
    place: &DiskFolder,
    disks: &[Disk],
) -> Result<(), Fault> {
    let home = fs::metadata(store).map_err(|error| Fault::path(store, error))?;
    if separate && place.device == home.dev() {
        return Err(Fault::Failed(format!(
            "{} is on the device of {}: no disk is mounted there (a store whose disks share a device is created with \
             --same-device)",
            place.path.display(),
            store.display()
        )));
    }
    let same = |disk: &&Disk| match disk {
        Disk::There(There { folder, .. }) => {
            folder.device == place.device && (separate || folder.inode == place.inode)
        }
        Disk::Away(_) => false,
    };
    match disks.iter().find(same) {
        Some(Disk::There(There { folder, .. })) => Err(Fault::Failed(format!(
            "{} and {} are on one device; each disk needs its own",
            place.path.display(),
            folder.path.display()
        ))),
        _ => Ok(()),
    }
}
