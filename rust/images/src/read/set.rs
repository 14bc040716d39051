//! The images of one set, opened for reading: which are there, and why the others count as lost.

pub mod again;
mod candidate;
mod direct;
mod find;

use std::path::{Path, PathBuf};

use crate::layout::label::Label;
use crate::read::image::Image;
use crate::read::medium::Medium;

/// The most disks of a set: 31 with film, P and Q.
pub const MOST_DISKS: usize = 33;

/// Why a disk counts as lost.
#[derive(Clone, Debug, PartialEq, Eq)]
pub enum Absence {
    /// Nothing stands there.
    Missing,
    /// The command names it.
    Named,
    /// An image of this set and disk that is not whole.
    Unfinished(String),
    /// What stands there is not of this set and disk, or cannot be known.
    Foreign(String),
}

/// A disk's image, or why it counts as lost.
pub enum Place {
    Here(Image),
    Lost(Absence),
}

/// The images of one set, opened for reading.
pub struct Set {
    /// The folder, or what messages call the set.
    folder: PathBuf,
    /// Where the images stand.
    paths: Vec<PathBuf>,
    pub label: Label,
    places: Vec<Place>,
    /// What stands in the place of lost disks, or beside it, unfinished: read where nothing else
    /// is left, and believed where it fits its checksums.
    remnants: Vec<(usize, Image)>,
    /// The labels of the images that are there which are not as they should be: disk, and where.
    pub bad_labels: Vec<(usize, u64)>,
    medium: Medium,
}

/// Where a disk's image stands.
pub fn image_path(folder: &Path, disk: usize) -> PathBuf {
    folder.join(format!("disk-{disk:02}.img"))
}

impl Set {
    pub fn folder(&self) -> &Path {
        &self.folder
    }

    pub fn path(&self, disk: usize) -> PathBuf {
        self.paths.get(disk).cloned().unwrap_or_else(|| image_path(&self.folder, disk))
    }

    pub fn image(&self, disk: usize) -> Option<&Image> {
        match self.places.get(disk) {
            Some(Place::Here(image)) => Some(image),
            _ => None,
        }
    }

    /// Why a disk counts as lost; none if its image is there.
    pub fn absence(&self, disk: usize) -> Option<&Absence> {
        match self.places.get(disk) {
            Some(Place::Lost(absence)) => Some(absence),
            _ => None,
        }
    }

    /// The lost disks, upward: at most two.
    pub fn lost(&self) -> Vec<usize> {
        (0..self.places.len()).filter(|disk| self.image(*disk).is_none()).collect()
    }

    /// The disks that are there, upward.
    pub fn present(&self) -> impl Iterator<Item = usize> + '_ {
        (0..self.places.len()).filter(|disk| self.image(*disk).is_some())
    }

    /// What is left of lost disks: the disk, and what stands there.
    pub fn remnants(&self) -> impl Iterator<Item = (usize, &Image)> {
        self.remnants.iter().map(|(disk, image)| (*disk, image))
    }

    /// The images that are drives, and their numbers.
    pub fn drives(&self) -> Vec<(&Path, u64)> {
        let images = self.present().filter_map(|disk| self.image(disk));
        images.filter_map(|image| Some((&*image.path, image.drive?))).collect()
    }

    /// The drives that may be read: what is left of lost disks too.
    pub fn sources(&self) -> Vec<(&Path, u64)> {
        let left = self.remnants().filter_map(|(_, image)| Some((&*image.path, image.drive?)));
        self.drives().into_iter().chain(left).collect()
    }

    /// What is to be told of images that are there and count as lost.
    pub fn notes(&self) -> Vec<String> {
        let note = |disk: usize| match self.absence(disk)? {
            Absence::Unfinished(what) | Absence::Foreign(what) => {
                Some(format!("{} {what}; it counts as lost", self.path(disk).display()))
            }
            _ => None,
        };
        (0..self.places.len()).filter_map(note).collect()
    }
}
