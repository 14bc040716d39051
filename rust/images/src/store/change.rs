//! A change of a store: promised on every disk, then images, then the catalogue, then what no
//! catalogue names goes.

use std::collections::HashSet;
use std::fs;
use std::rc::Rc;

use super::catalogue::{self, Catalogue, Package};
use super::disk_file::{self, DiskFile};
use super::opened::Store;
use super::place::DiskFolder;
use super::replace::{read, replace};
use crate::fault::Fault;
use crate::layout::label::{hex, name_of};
use crate::layout::sums::SetName;
use crate::names::disk_names;
use crate::os::files::can_open;

/// A change that is under way. The store is locked meanwhile.
pub struct Change<'a> {
    pub store: &'a Store,
    /// The generation of the catalogue that it writes.
    generation: u64,
    /// The disks that take part.
    disks: Vec<usize>,
    /// What is to be told of disks that were left out.
    told: Vec<String>,
}

/// A change that stands.
pub struct Changed {
    /// The disks of the store that lack it, upward.
    pub lack: Vec<usize>,
    /// The same in words.
    pub lacking: String,
    /// What is to be told of disks that were left out.
    pub warnings: Vec<String>,
    /// Why images that no catalogue names could not be taken away.
    pub leftovers: Vec<String>,
}

impl<'a> Change<'a> {
    /// Begins a change: it is promised on every disk that is there.
    pub fn begin(store: &'a Store) -> Result<Change<'a>, Fault> {
        let (disks, needs) = (store.there(), store.quorum().to_change());
        if disks.len() < needs {
            return Err(Fault::Images(format!(
                "{}: {} disks are there, and a change needs {needs}; mount the others first",
                store.folder.display(),
                disks.len()
            )));
        }
        let generation = store.highest.checked_add(1).ok_or_else(|| {
            Fault::Failed(format!("{}: no generation is left", store.folder.display()))
        })?;
        let mut change = Change { store, generation, disks, told: Vec::new() };
        change.each(|change, disk| {
            change.put(disk, disk_file::NAME, change.promise(disk).text().as_bytes())
        })?;
        Ok(change)
    }

    fn put(&self, disk: usize, name: &str, bytes: &[u8]) -> Result<(), Fault> {
        match self.store.disk(disk) {
            Some(there) => {
                replace(&there.folder, name, bytes)?;
                there.folder.is_in_place()
            }
            None => Ok(()),
        }
    }

    /// The disks that take part.
    pub fn disks(&self) -> &[usize] {
        &self.disks
    }

    /// Does something on every disk; one where it fails is told and left out, if enough are left.
    pub fn each(
        &mut self,
        mut step: impl FnMut(&Change, usize) -> Result<(), Fault>,
    ) -> Result<(), Fault> {
        for disk in self.disks.clone() {
            if let Err(fault) = step(self, disk) {
                self.leave_out(disk, fault)?;
            }
        }
        Ok(())
    }

    /// Goes on without a disk, if enough are left.
    pub fn leave_out(&mut self, disk: usize, fault: Fault) -> Result<(), Fault> {
        can_open(&self.store.folder)?;
        self.disks.retain(|one| *one != disk);
        self.told.push(format!("disk {disk} is left out: {fault}"));
        if self.disks.len() >= self.store.quorum().to_change() {
            return Ok(());
        }
        Err(Fault::Failed(format!(
            "{}; {} disks are left, and a change needs {}; nothing is changed",
            self.told.join("; "),
            self.disks.len(),
            self.store.quorum().to_change()
        )))
    }

    /// Makes the names of new images last.
    pub fn sync_folders(&mut self) -> Result<(), Fault> {
        self.each(|change, disk| match change.store.disk(disk) {
            Some(there) => there.folder.sync(),
            None => Ok(()),
        })
    }

    /// Looks once more whether every disk has the promise of this change: a program that locks no
    /// disks may have changed them by another folder of links.
    fn is_promised(&mut self) -> Result<(), Fault> {
        let mut other = None;
        self.each(|change, disk| {
            let Some(there) = change.store.disk(disk) else { return Ok(()) };
            let path = there.folder.below(disk_file::NAME);
            let text = read(&path, disk_file::MOST_BYTES);
            let text = text.map_err(|error| Fault::path(&path, error))?;
            if text != change.promise(disk).text().as_bytes() {
                other = other.or(Some(disk));
            }
            Ok(())
        })?;
        match other {
            None => Ok(()),
            Some(disk) => Err(Fault::Failed(format!(
                "{}: another program has changed disk {disk} meanwhile; nothing is changed; run it again",
                self.store.folder.display()
            ))),
        }
    }

    /// The file `disk` of this change.
    fn promise(&self, disk: usize) -> DiskFile {
        DiskFile { store: self.store.numbers().store, disk, promise: self.generation }
    }

    /// The text of the catalogue with these packages, if it is within its limit.
    fn catalogue(&self, packages: Vec<Package>) -> Result<(Catalogue, String), Fault> {
        let numbers = *self.store.numbers();
        let new = Catalogue { numbers, generation: self.generation, packages };
        let text = new.text();
        is_within(self.store, text.len() as u64)?;
        Ok((new, text))
    }

    /// Writes the catalogue with these packages: the change stands once enough disks have it. Then
    /// images go that no catalogue names.
    pub fn commit(mut self, packages: Vec<Package>) -> Result<Changed, Fault> {
        let (catalogue, text) = self.catalogue(packages)?;
        self.is_promised()?;
        let mut have = Vec::new();
        for disk in &self.disks {
            match self.put(*disk, catalogue::NAME, text.as_bytes()) {
                Ok(()) => have.push(*disk),
                Err(fault) => self.told.push(format!("disk {disk} lacks the change: {fault}")),
            }
        }
        if have.len() < self.store.quorum().to_change() {
            return Err(Fault::Unsure(format!(
                "{}: {}; it may stand or not; run it again",
                self.store.folder.display(),
                self.told.join("; ")
            )));
        }
        let lack: Vec<usize> =
            (0..self.store.disks.len()).filter(|disk| !have.contains(disk)).collect();
        let leftovers = self.sweep(&catalogue, &have, &lack);
        let lacking = disk_names(self.store.numbers().shape, &lack);
        Ok(Changed { lack, lacking, warnings: self.told, leftovers })
    }

    /// Takes away the images that no catalogue names, of any generation on any disk; says where that
    /// could not be done.
    fn sweep(&self, catalogue: &Catalogue, have: &[usize], lack: &[usize]) -> Vec<String> {
        let left = lack.iter().filter_map(|disk| self.store.disk(*disk)?.copy.clone());
        let mut named: HashSet<SetName> = catalogue.sets().collect();
        left.for_each(|copy: Rc<Catalogue>| named.extend(copy.sets()));
        let sweep = |disk: &usize| self.sweep_disk(*disk, &named).err();
        have.iter().filter_map(sweep).map(|fault| fault.to_string()).collect()
    }

    fn sweep_disk(&self, disk: usize, named: &HashSet<SetName>) -> Result<(), Fault> {
        let Some(there) = self.store.disk(disk) else { return Ok(()) };
        let folder = &there.folder;
        let useless = useless(folder, named)?;
        folder.is_in_place()?;
        for path in useless.iter().map(|name| folder.below(name)) {
            fs::remove_file(&path).map_err(|error| Fault::path(&path, error))?;
        }
        if !useless.is_empty() {
            folder.sync()?;
        }
        Ok(())
    }
}

/// Refuses a catalogue of more bytes than its limit.
pub fn is_within(store: &Store, bytes: u64) -> Result<(), Fault> {
    if bytes <= catalogue::MOST_BYTES {
        return Ok(());
    }
    Err(Fault::Failed(format!(
        "{}: the catalogue would have more than 16 MiB; remove packages first",
        store.folder.display()
    )))
}

/// The names of images in a disk's folder, whole or not, whose sets are not named.
fn useless(folder: &DiskFolder, named: &HashSet<SetName>) -> Result<Vec<String>, Fault> {
    let names = folder.names().map_err(|error| Fault::path(&folder.path, error))?;
    let is_useless = |name: &String| image_of(name).is_some_and(|set| !named.contains(&set));
    Ok(names.into_iter().filter(is_useless).collect())
}

/// Whether a disk has images of a change that was cut off.
pub fn has_leftovers(store: &Store) -> Result<bool, Fault> {
    let named: HashSet<SetName> = store.catalogue.sets().collect();
    for disk in store.there().iter().filter_map(|disk| store.disk(*disk)) {
        if !useless(&disk.folder, &named)?.is_empty() {
            return Ok(true);
        }
    }
    Ok(false)
}

/// The set of a file that is named as an image, or as one that is being written.
fn image_of(name: &str) -> Option<SetName> {
    let stem = name.strip_suffix(".img").or_else(|| name.strip_suffix(".img.part"))?;
    name_of(stem).filter(|set| hex(set) == stem)
}

#[cfg(test)]
mod tests {
    use super::*;

    #[test]
    fn only_names_of_sets_are_swept() {
        let name = "0123456789abcdef".repeat(2);
        for good in [format!("{name}.img"), format!("{name}.img.part")] {
            assert_eq!(image_of(&good).map(|set| hex(&set)), Some(name.clone()), "{good}");
        }
        let upper = name.to_uppercase();
        for other in [
            "disk",
            "catalogue",
            ".img",
            "x.img",
            &format!("{upper}.img"),
            &name,
            &format!("{name}0.img"),
            &format!("{name}.mkv"),
            &format!("+{}.img", &name[1..]),
        ] {
            assert_eq!(image_of(other), None, "{other}");
        }
    }
}
