//! What stands in the place of a disk's image, before the set is known, and what its labels name.

use std::io::ErrorKind;
use std::path::Path;

use super::Absence;
use crate::layout::geometry::LABEL_BYTES;
use crate::layout::label::{hex, Found, Label};
use crate::read::image::Image;

/// What stands in a place, before the set is known.
#[allow(clippy::large_enum_variant)] // there is one a disk
pub(super) enum Candidate {
    Nothing,
    /// The image, and what its first block tells; none if that cannot be read.
    Image(Image, Option<Found>),
    Odd(String),
}

impl Candidate {
    /// What stands at a path.
    pub fn at(path: &Path) -> Candidate {
        match Image::open(path) {
            Ok(image) => {
                let found = image.block(0).ok().map(|block| Found::of(&block));
                Candidate::Image(image, found)
            }
            // The node of a drive that is not attached now.
            Err(_) if is_dangling(path) => Candidate::Odd("is a link that leads nowhere".into()),
            Err(error) if error.kind() == ErrorKind::NotFound => Candidate::Nothing,
            Err(error) => Candidate::Odd(format!("cannot be read: {error}")),
        }
    }

    /// Whether it names this set and disk, by either label.
    pub fn names(&self, disk: usize, label: &Label) -> bool {
        match self {
            Candidate::Image(_, Some(Found::Image(own, number))) => own == label && *number == disk,
            Candidate::Image(_, Some(Found::Part(..))) => false,
            Candidate::Image(image, _) => last_label(image, disk, label),
            _ => false,
        }
    }

    /// The label that its first block has, if that is of this disk; its last where the first is bad.
    pub fn label(&self, disk: usize) -> Option<Label> {
        let (label, number) = match self {
            Candidate::Image(_, Some(Found::Image(label, number))) => (*label, *number),
            Candidate::Image(_, Some(Found::Part(..) | Found::First)) => return None,
            Candidate::Image(image, _) => last_of(image)?,
            _ => return None,
        };
        (number == disk).then_some(label)
    }

    /// Whether it is an image of the first layout.
    pub fn is_of_first_layout(&self) -> bool {
        matches!(self, Candidate::Image(_, Some(Found::First)))
    }
}

fn is_dangling(path: &Path) -> bool {
    path.is_symlink() && path.metadata().is_err_and(|error| error.kind() == ErrorKind::NotFound)
}

/// The label that an image ends with, and its disk. On a drive that is longer it is not found so.
fn last_of(image: &Image) -> Option<(Label, usize)> {
    let at = image.len.checked_sub(LABEL_BYTES as u64)?;
    match Found::of(&image.block(at).ok()?) {
        Found::Image(label, disk) if label.geometry.end() == at => Some((label, disk)),
        _ => None,
    }
}

/// Whether the last block of an image whose first is bad is that label.
pub(super) fn last_label(image: &Image, disk: usize, label: &Label) -> bool {
    let end = label.geometry.end();
    image.block(end).is_ok_and(|block| Found::of(&block) == Found::Image(*label, disk))
}

/// Why an image that does not name this set and disk counts as lost.
pub(super) fn stranger(label: &Label, disk: usize, image: &Image, found: Option<Found>) -> Absence {
    let what = match found {
        _ if image.len == 0 => return Absence::Unfinished("is empty".into()),
        Some(Found::Part(own, number)) if own == *label && number == disk => {
            return Absence::Unfinished("is being rebuilt".into());
        }
        Some(Found::Image(own, _) | Found::Part(own, _)) if own != *label => {
            format!("is of set {}, the others are of set {}", hex(&own.set), hex(&label.set))
        }
        Some(Found::Image(_, number) | Found::Part(_, number)) => {
            format!("is the image of disk {number}")
        }
        Some(Found::First) => "is an image of the first layout".into(),
        Some(Found::Blank) => "has no label".into(),
        Some(Found::Damaged) => "has damaged labels".into(),
        None => "has labels that cannot be read".into(),
    };
    Absence::Foreign(what)
}
