//! A set that is served for a long time: its images come and go meanwhile.

use std::fs;
use std::path::PathBuf;

use super::candidate::Candidate;
use super::find::remnants_at;
use super::{Absence, Place, Set};
use crate::layout::label::Label;
use crate::read::image::Image;

impl Set {
    /// Opens those images of a set whose label is known that are there, however few they are.
    pub fn some(name: PathBuf, label: Label, paths: Vec<PathBuf>) -> Set {
        let mut set = Set::of(name, paths, label);
        for disk in 0..label.geometry.disks() {
            let seen = set.paths.get(disk).map_or(Candidate::Nothing, |path| Candidate::at(path));
            let place = set.place(disk, seen);
            set.places.push(place);
        }
        set.find_remnants();
        set
    }

    /// The set of which no disk was looked at yet.
    pub fn none(name: PathBuf, label: Label, paths: Vec<PathBuf>) -> Set {
        let mut set = Set::of(name, paths, label);
        let lost = |_| Place::Lost(Absence::Missing);
        set.places = (0..label.geometry.disks()).map(lost).collect();
        set
    }

    /// Who looks at the place of one disk, for the first time or again.
    pub fn looker(&self, disk: usize, first: bool) -> Looker {
        let (name, path, label) = (self.folder.clone(), self.path(disk), self.label);
        Looker { name, path, label, disk, first, open: self.image(disk).map(Image::again) }
    }

    /// The set with what was found in some places, each looked at once.
    pub fn with(&self, found: Vec<FoundPlace>) -> Set {
        let mut set = Set::of(self.folder.clone(), self.paths.clone(), self.label);
        let stays = |disk: &usize| found.iter().all(|one| one.disk != *disk);
        let kept = |(disk, place): (usize, &Place)| match place {
            Place::Here(image) if stays(&disk) => Place::Here(image.again()),
            Place::Lost(absence) if stays(&disk) => Place::Lost(absence.clone()),
            _ => Place::Lost(Absence::Missing),
        };
        set.places = self.places.iter().enumerate().map(kept).collect();
        let left = self.remnants().filter(|(disk, _)| stays(disk));
        set.remnants = left.map(|(disk, image)| (disk, image.again())).collect();
        set.bad_labels = self.bad_labels.iter().copied().filter(|(disk, _)| stays(disk)).collect();
        for one in found {
            if let Some(place) = set.places.get_mut(one.disk) {
                *place = one.place;
                set.remnants.extend(one.remnants);
                set.bad_labels.extend(one.bad_labels);
            }
        }
        set
    }
}

/// What stands in the place of one disk, found for itself: no disk waits for another.
pub struct FoundPlace {
    disk: usize,
    place: Place,
    remnants: Vec<(usize, Image)>,
    bad_labels: Vec<(usize, u64)>,
}

impl FoundPlace {
    /// Whether the disk's image is there.
    pub fn is_here(&self) -> bool {
        matches!(self.place, Place::Here(_))
    }
}

/// Looks at the place of one disk.
pub struct Looker {
    name: PathBuf,
    path: PathBuf,
    label: Label,
    disk: usize,
    first: bool,
    open: Option<Image>,
}

impl Looker {
    /// What stands there, if it is another than the image that is open, or was not looked at. An image stays open,
    /// whatever became of its name, until another of this set has the name or it is cut.
    pub fn look(self) -> Option<FoundPlace> {
        let mut set = Set::of(self.name, Vec::new(), self.label);
        let open = self.open.as_ref();
        let cut_now = || open.filter(|image| image.is_cut()).map(|_| cut());
        let same = |image: &Image| fs::metadata(&self.path).is_ok_and(|data| image.is(&data));
        let place = match open.is_some_and(same) {
            true => cut_now(),
            false => match set.place(self.disk, Candidate::at(&self.path)) {
                Place::Lost(_) if !self.first => cut_now(),
                other => Some(other),
            },
        }?;
        let remnants = match place {
            Place::Here(_) => Vec::new(),
            Place::Lost(_) => remnants_at(self.disk, &self.path),
        };
        Some(FoundPlace { disk: self.disk, place, remnants, bad_labels: set.bad_labels })
    }
}

fn cut() -> Place {
    Place::Lost(Absence::Unfinished("was cut short".into()))
}
