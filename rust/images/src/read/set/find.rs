//! Which set the images of a folder are of, and which of its disks are there.

use std::path::{Path, PathBuf};

use super::candidate::{last_label, stranger, Candidate};
use super::{image_path, Absence, Place, Set, MOST_DISKS};
use crate::fault::Fault;
use crate::layout::label::{hex, Found, Label};
use crate::names::disk_names;
use crate::os::files::can_open;
use crate::os::folder::part_path;
use crate::read::image::Image;
use crate::read::medium::Medium;

impl Set {
    /// Opens the set that at least as many images name as it has data disks. Disks that the command
    /// names count as lost, whatever stands there.
    pub fn open(folder: &Path, named: &[usize]) -> Result<Set, Fault> {
        std::fs::read_dir(folder).map_err(|error| Fault::path(folder, error))?;
        let look = |disk| match named.contains(&disk) {
            true => Candidate::Nothing,
            false => Candidate::at(&image_path(folder, disk)),
        };
        let seen: Vec<Candidate> = (0..MOST_DISKS).map(look).collect();
        can_open(folder)?;
        let label = common_label(folder, &seen)?;
        let paths = (0..label.geometry.disks()).map(|disk| image_path(folder, disk)).collect();
        let mut set = Set::of(folder.into(), paths, label);
        for disk in named {
            let plan = label.geometry.shape.plan(*disk); // refused for a disk that the array lacks
            plan.map_err(|refusal| Fault::Refused(refusal, format!("--disk {disk}: ")))?;
        }
        for (disk, seen) in seen.into_iter().enumerate().take(label.geometry.disks()) {
            let place = match named.contains(&disk) {
                true => Place::Lost(Absence::Named),
                false => set.place(disk, seen),
            };
            set.places.push(place);
        }
        set.enough()
    }

    /// Opens the images of a set whose label is known, disk by disk at these paths.
    pub fn known(name: PathBuf, label: Label, paths: Vec<PathBuf>) -> Result<Set, Fault> {
        let seen: Vec<Candidate> = paths.iter().map(|path| Candidate::at(path)).collect();
        let mut set = Set::of(name, paths, label);
        for (disk, seen) in seen.into_iter().enumerate().take(label.geometry.disks()) {
            let place = set.place(disk, seen);
            set.places.push(place);
        }
        set.enough()
    }

    pub(super) fn of(folder: PathBuf, paths: Vec<PathBuf>, label: Label) -> Set {
        let (places, remnants, bad_labels) = (Vec::new(), Vec::new(), Vec::new());
        Set { folder, paths, label, places, remnants, bad_labels, medium: Medium::default() }
    }

    /// Refuses a set of which too much is lost; else looks for what is left of its lost disks.
    fn enough(mut self) -> Result<Set, Fault> {
        let lost = self.lost();
        if !lost.is_empty() {
            can_open(&self.folder)?;
        }
        if lost.len() > 2 {
            return Err(too_many(&self.folder, &self.label, &lost, &self.notes()));
        }
        self.find_remnants();
        Ok(self)
    }

    /// Looks for what is left of lost disks.
    pub(super) fn find_remnants(&mut self) {
        for disk in self.lost() {
            self.remnants.extend(remnants_at(disk, &self.path(disk)));
        }
    }

    /// Takes what stands in a place for the disk's image, or says why not.
    pub(super) fn place(&mut self, disk: usize, seen: Candidate) -> Place {
        let ours = seen.names(disk, &self.label);
        let (image, found) = match seen {
            Candidate::Nothing => return Place::Lost(Absence::Missing),
            Candidate::Odd(what) => return Place::Lost(Absence::Foreign(what)),
            Candidate::Image(image, found) => (image, found),
        };
        if !ours {
            return Place::Lost(stranger(&self.label, disk, &image, found));
        }
        let (end, needs) = (self.label.geometry.end(), self.label.geometry.image_bytes());
        if image.len < needs || image.drive.is_none() && image.len > needs {
            let what = format!("has {} bytes, and the image {needs}", image.len);
            return Place::Lost(Absence::Unfinished(what));
        }
        if !matches!(found, Some(Found::Image(..))) {
            self.bad_labels.push((disk, 0));
        }
        if !last_label(&image, disk, &self.label) {
            self.bad_labels.push((disk, end));
        }
        Place::Here(image)
    }
}

/// What is left of a lost disk.
pub(super) fn remnants_at(disk: usize, path: &Path) -> Vec<(usize, Image)> {
    let found = [&part_path(path), path].map(|path| Image::open(path).ok());
    found.into_iter().flatten().map(|image| (disk, image)).collect()
}

/// The one label that enough images name.
fn common_label(folder: &Path, seen: &[Candidate]) -> Result<Label, Fault> {
    let mut candidates: Vec<Label> = Vec::new();
    for (disk, seen) in seen.iter().enumerate() {
        candidates.extend(seen.label(disk).filter(|label| !candidates.contains(label)));
    }
    let count = |label: &Label| {
        seen.iter().enumerate().filter(|(disk, seen)| seen.names(*disk, label)).count()
    };
    let enough: Vec<&Label> =
        candidates.iter().filter(|label| count(label) >= label.geometry.shape.disks()).collect();
    match enough[..] {
        [label] => Ok(*label),
        [] => Err(no_set(folder, seen, candidates.into_iter().max_by_key(count))),
        _ => Err(Fault::Images(format!(
            "{}: images of two whole sets; put those of one somewhere else",
            folder.display()
        ))),
    }
}

/// More disks are lost than can be rebuilt.
fn too_many(folder: &Path, label: &Label, lost: &[usize], notes: &[String]) -> Fault {
    let notes: String = notes.iter().map(|note| format!("; {note}")).collect();
    Fault::Images(format!(
        "{}: {} of set {} are lost, and no more than two can be rebuilt; put back the images that are somewhere \
         else{notes}",
        folder.display(),
        disk_names(label.geometry.shape, lost),
        hex(&label.set)
    ))
}

/// Why no set can be opened.
fn no_set(folder: &Path, seen: &[Candidate], best: Option<Label>) -> Fault {
    if let Some(label) = best {
        let disks = 0..label.geometry.disks();
        let lost: Vec<usize> = disks.filter(|disk| !seen[*disk].names(*disk, &label)).collect();
        return too_many(folder, &label, &lost, &[]);
    }
    let folder = folder.display();
    if seen.iter().any(Candidate::is_of_first_layout) {
        return Fault::Images(format!(
            "{folder}: images of the first layout (cuzhaveli image 1), which had no checksums; decode them with the \
             command that wrote them, and encode the film anew"
        ));
    }
    Fault::Images(format!(
        "{folder}: no disk-NN.img with a label in its place; give the folder of a set that `cuzhaveli encode` has \
         finished"
    ))
}
