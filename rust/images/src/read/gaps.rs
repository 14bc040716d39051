//! Stripes that cannot be made right: there may be more than memory holds, so that stretches of them
//! are kept, the first so many, and a count of all.

use std::ops::Range;

use cuzhaveli::Shape;

use crate::names::{self, disk_names};
use crate::read::set::Set;

/// Stripes that cannot be made right.
#[derive(Clone, Debug, PartialEq, Eq)]
pub struct Beyond {
    pub stripes: Range<u64>,
    /// The disks that are lost or bad there; none if no image has the unit's checksums.
    pub disks: Vec<usize>,
}

impl Beyond {
    pub fn told(&self, shape: Shape) -> String {
        let stripes = names::stripes(self.stripes.start, self.stripes.end);
        match self.disks[..] {
            [] => format!("{stripes}: no image has the checksums"),
            _ => format!("{stripes}: too much is bad on {}", disk_names(shape, &self.disks)),
        }
    }
}

/// The most stretches that are kept.
pub const MOST_STRETCHES: usize = 1000;

#[derive(Default)]
pub struct Gaps {
    stretches: Vec<Beyond>,
    stripes: u64,
    /// Those of them that no stretch has.
    more: u64,
}

impl Gaps {
    /// Adds stripes, given upward.
    pub fn add(&mut self, one: Beyond) {
        let count = one.stripes.end - one.stripes.start;
        self.stripes += count;
        let is_full = self.stretches.len() >= MOST_STRETCHES;
        match self.stretches.last_mut() {
            Some(last) if last.stripes.end == one.stripes.start && last.disks == one.disks => {
                last.stripes.end = one.stripes.end;
            }
            _ if is_full => self.more += count,
            _ => self.stretches.push(one),
        }
    }

    pub fn is_empty(&self) -> bool {
        self.stripes == 0
    }

    /// All stripes that cannot be made right.
    pub fn stripes(&self) -> u64 {
        self.stripes
    }

    /// The stretches of them that are kept.
    pub fn stretches(&self) -> &[Beyond] {
        &self.stretches
    }

    /// Those that no stretch has.
    pub fn more(&self) -> u64 {
        self.more
    }

    /// What is to be told of them, a line each.
    pub fn told(&self, set: &Set) -> Vec<String> {
        let (folder, shape) = (set.folder().display(), set.label.geometry.shape);
        let one = |beyond: &Beyond| format!("{folder}, {}", beyond.told(shape));
        let mut told: Vec<String> = self.stretches.iter().map(one).collect();
        if self.more > 0 {
            told.push(format!(
                "{folder}: too much is bad in {} more",
                names::count(self.more, "stripe")
            ));
        }
        told
    }
}

/// What is beyond in the unit that begins with a stripe, of a list that goes upward.
pub fn at(beyond: &[Beyond], stripe: u64) -> Option<&Beyond> {
    let place = beyond.binary_search_by_key(&stripe, |one| one.stripes.start).ok()?;
    beyond.get(place)
}

#[cfg(test)]
mod tests {
    use super::*;

    fn beyond(first: u64, disks: &[usize]) -> Beyond {
        Beyond { stripes: first..first + 2, disks: disks.into() }
    }

    #[test]
    fn stretches_grow_and_do_not_become_too_many() {
        let mut gaps = Gaps::default();
        assert!(gaps.is_empty());
        [0, 2, 4].into_iter().for_each(|first| gaps.add(beyond(first, &[1])));
        gaps.add(beyond(6, &[2]));
        gaps.add(beyond(10, &[2]));
        let kept: Vec<_> = gaps.stretches().iter().map(|one| one.stripes.clone()).collect();
        assert_eq!((kept, gaps.stripes(), gaps.more()), (vec![0..6, 6..8, 10..12], 10, 0));
        (0..2000).for_each(|number| gaps.add(beyond(100 + 4 * number, &[0])));
        assert_eq!((gaps.stretches().len(), gaps.stripes()), (MOST_STRETCHES, 4010));
        assert_eq!(gaps.more(), 2 * (2000 - MOST_STRETCHES as u64 + 3));
    }

    #[test]
    fn a_unit_is_found_by_its_first_stripe() {
        let list = [beyond(2, &[1]), beyond(6, &[3])];
        assert_eq!(at(&list, 6), Some(&list[1]));
        assert_eq!([at(&list, 4), at(&list, 3), at(&[], 0)], [None; 3]);
    }
}
