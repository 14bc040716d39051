//! A set whose images are read past the page cache.

use std::collections::BTreeSet;

use super::{Place, Set};
use crate::read::image::Image;
use crate::read::medium::Medium;

impl Set {
    /// How many reads are worth having under way.
    pub fn threads(&self) -> usize {
        self.medium.threads(self.present().count())
    }

    /// Whether images are read past the page cache, each from a device of its own.
    pub fn each_alone(&self) -> bool {
        self.medium.each_alone()
    }

    /// From now on images are read past the page cache; the disks where that cannot be had.
    pub fn go_direct(&mut self) -> Vec<usize> {
        let mut cached = Vec::new();
        for (disk, place) in self.places.iter_mut().enumerate() {
            if let Place::Here(image) = place {
                if !image.go_direct() {
                    cached.push(disk);
                }
            }
        }
        for (_, image) in &mut self.remnants {
            image.go_direct();
        }
        self.bad_labels = self.labels_now();
        let images: Vec<&Image> = self.present().filter_map(|disk| self.image(disk)).collect();
        let devices: BTreeSet<u64> = images.iter().filter_map(|image| image.device()).collect();
        self.medium = Medium::direct(devices.len() == images.len());
        cached
    }

    /// The labels of the images that are there which are not as they should be, read once more.
    fn labels_now(&self) -> Vec<(usize, u64)> {
        let places = self.present().flat_map(|disk| [(disk, 0), (disk, self.label.geometry.end())]);
        let bad = |(disk, at): &(usize, u64)| {
            let block = self.image(*disk).map(|image| image.block(*at));
            !matches!(block, Some(Ok(block)) if block == self.label.block(*disk))
        };
        places.filter(bad).collect()
    }
}
