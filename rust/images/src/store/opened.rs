//! A store as its disks say it is: which of them are there, and the catalogue that counts.

use std::path::{Path, PathBuf};
use std::rc::Rc;

use super::agree::{counting, numbers, promised, put_aside, settle};
use super::catalogue::{Catalogue, Entry, Numbers, Package};
use super::name::Name;
use super::place::{disk_path, Disk, DiskFolder, PlaceTexts, Places, Seen, There};
use super::quorum::Quorum;
use crate::fault::Fault;
use crate::layout::label::{hex, Label};
use crate::layout::sums::SetName;
use crate::os::files::can_open;
use crate::read::set::Set;

pub struct Store {
    pub folder: PathBuf,
    /// The one that counts.
    pub catalogue: Rc<Catalogue>,
    pub disks: Vec<Disk>,
    /// The largest promise or generation on any disk of the store, wherever it stands, but those that
    /// no change of it made.
    pub highest: u64,
    /// All folders that are held open, also those of no disk of the store.
    pub(super) places: Places,
}

/// Where a set's image stands on a disk.
pub fn image_path(store: &Path, disk: usize, set: &SetName) -> PathBuf {
    disk_path(store, disk).join(format!("{}.img", hex(set)))
}

impl Store {
    /// Opens the one store of which enough disks have a whole catalogue.
    pub fn open(folder: &Path) -> Result<Store, Fault> {
        std::fs::read_dir(folder).map_err(|error| Fault::path(folder, error))?;
        let places = Places::open(folder);
        let seen = places.look();
        Store::judged(folder, places, seen)
    }

    /// The same from what was read of all places.
    pub fn of(folder: &Path, texts: impl IntoIterator<Item = PlaceTexts>) -> Result<Store, Fault> {
        let (places, seen) = Places::of(texts);
        Store::judged(folder, places, seen)
    }

    /// The same to be changed: the folders of all disks are locked before anything is read of them,
    /// whichever folder of links others came by. `waits` is called if another has one.
    pub fn open_to_change(folder: &Path, waits: impl FnOnce()) -> Result<Store, Fault> {
        std::fs::read_dir(folder).map_err(|error| Fault::path(folder, error))?;
        let places = Places::open(folder);
        places.lock(waits)?;
        let seen = places.look();
        Store::judged(folder, places, seen)
    }

    /// The store in these places.
    fn judged(folder: &Path, places: Places, seen: Vec<Seen>) -> Result<Store, Fault> {
        can_open(folder)?;
        let numbers = numbers(folder, &seen)?;
        let promised = promised(&numbers.store, &seen);
        let seen = seen.into_iter().enumerate().take(numbers.shape.disks() + 2);
        let mut disks: Vec<Disk> = seen.map(|(disk, seen)| settle(&numbers, disk, seen)).collect();
        let catalogue = counting(folder, &numbers, &disks)?;
        let highest = put_aside(&mut disks, catalogue.generation, &promised);
        let store = Store { folder: folder.into(), catalogue, disks, highest, places };
        store.are_apart()?;
        Ok(store)
    }

    /// The store once more, with the folders that are locked.
    pub(super) fn reopened(self) -> Result<Store, Fault> {
        let seen = self.places.look();
        Store::judged(&self.folder, self.places, seen)
    }

    pub fn numbers(&self) -> &Numbers {
        &self.catalogue.numbers
    }

    pub fn quorum(&self) -> Quorum {
        Quorum::of(self.numbers().shape.disks())
    }

    pub fn disk(&self, disk: usize) -> Option<&There> {
        match self.disks.get(disk) {
            Some(Disk::There(there)) => Some(there),
            _ => None,
        }
    }

    /// The disks that are there, upward.
    pub fn there(&self) -> Vec<usize> {
        (0..self.disks.len()).filter(|disk| self.disk(*disk).is_some()).collect()
    }

    /// The generation of a disk's catalogue, if it is whole.
    pub fn generation(&self, disk: usize) -> Option<u64> {
        self.disk(disk)?.copy.as_ref().map(|copy| copy.generation)
    }

    /// The disks that are there and lack the catalogue that counts, or a later one.
    pub fn stale(&self) -> Vec<usize> {
        let current = |disk: &usize| self.generation(*disk) >= Some(self.catalogue.generation);
        self.there().into_iter().filter(|disk| !current(disk)).collect()
    }

    /// Whether a disk has the catalogue of a later change, which does not count.
    pub fn is_ahead(&self, disk: usize) -> bool {
        self.generation(disk) > Some(self.catalogue.generation)
    }

    /// Whether every disk that is there has the catalogue that counts.
    pub fn is_settled(&self) -> bool {
        let counts = Some(self.catalogue.generation);
        self.there().iter().all(|disk| self.generation(*disk) == counts)
    }

    /// What is to be told of the disks.
    pub fn notes(&self) -> Vec<String> {
        let counts = self.catalogue.generation;
        let note = |(disk, one): (usize, &Disk)| {
            let what = match one {
                Disk::Away(what) => what.clone(),
                Disk::There(There { copy: None, .. }) => "has no whole catalogue".into(),
                Disk::There(There { copy: Some(copy), .. }) if copy.generation < counts => {
                    format!("is stale: generation {}, and {counts} counts", copy.generation)
                }
                Disk::There(There { copy: Some(copy), .. }) if copy.generation > counts => {
                    format!("has generation {} of a change that was cut off", copy.generation)
                }
                _ => return None,
            };
            Some(format!("{} {what}", disk_path(&self.folder, disk).display()))
        };
        self.disks.iter().enumerate().filter_map(note).collect()
    }

    /// No two places may be one folder, nor on one device if the store has them apart.
    fn are_apart(&self) -> Result<(), Fault> {
        let folders: Vec<(usize, &DiskFolder)> = self
            .there()
            .into_iter()
            .filter_map(|disk| Some((disk, &*self.disk(disk)?.folder)))
            .collect();
        for (number, (disk, folder)) in folders.iter().enumerate() {
            let same = |(_, other): &&(usize, &DiskFolder)| {
                other.device == folder.device
                    && (self.numbers().separate || other.inode == folder.inode)
            };
            if let Some((other, _)) = folders[..number].iter().find(same) {
                return Err(Fault::Images(format!(
                    "{}: disks {other} and {disk} are on one device; mount each disk's own",
                    self.folder.display()
                )));
            }
        }
        Ok(())
    }

    pub fn image_path(&self, disk: usize, set: &SetName) -> PathBuf {
        image_path(&self.folder, disk, set)
    }

    /// The same to be written: below the folder that is held.
    pub fn held_image(&self, disk: usize, set: &SetName) -> Result<PathBuf, Fault> {
        match self.disk(disk) {
            Some(there) => Ok(there.folder.below(&format!("{}.img", hex(set)))),
            None => Err(Fault::Failed(format!("disk {disk} is not there"))),
        }
    }

    /// The images of a file's set; none of an empty file.
    pub fn set(&self, package: &Package, file: &Entry) -> Result<Option<Set>, Fault> {
        self.set_with(package, file, None)
    }

    /// The same with one disk's image from another place.
    pub fn set_with(
        &self,
        package: &Package,
        file: &Entry,
        other: Option<(usize, PathBuf)>,
    ) -> Result<Option<Set>, Fault> {
        let Some(label) = file.label(self.numbers()) else { return Ok(None) };
        let mut paths: Vec<PathBuf> =
            (0..self.disks.len()).map(|disk| self.image_path(disk, &label.set)).collect();
        if let Some((disk, path)) = other {
            paths[disk] = path;
        }
        Set::known(self.name_of(package, file), label, paths).map(Some)
    }

    /// What messages call a file.
    pub fn name_of(&self, package: &Package, file: &Entry) -> PathBuf {
        self.folder.join(package.name.as_str()).join(file.name.as_str())
    }

    /// A package that is there.
    pub fn package(&self, name: &Name) -> Result<&Package, Fault> {
        self.catalogue.package(name).ok_or_else(|| {
            let (folder, name) = (self.folder.display(), name.as_str());
            Fault::No(format!("{folder}: no package {name}; cuzhaveli list {folder} tells them"))
        })
    }

    /// A file that is there.
    pub fn file<'a>(&self, package: &'a Package, name: &Name) -> Result<&'a Entry, Fault> {
        package.files.iter().find(|file| file.name == *name).ok_or_else(|| {
            let (folder, one) = (self.folder.display(), package.name.as_str());
            let name = name.as_str();
            Fault::No(format!(
                "{folder}: package {one} has no file {name}; cuzhaveli list {folder} {one} tells them"
            ))
        })
    }

    /// Whether a disk that is there has an image of the right length.
    pub fn has_image(&self, disk: usize, label: &Label) -> bool {
        let data = self.image_path(disk, &label.set).symlink_metadata();
        data.is_ok_and(|data| data.is_file() && data.len() == label.geometry.image_bytes())
    }
}
