//! What new images take of each disk, and what is free there.

use cuzhaveli::Space;

use super::opened::Store;
use crate::fault::Fault;
use crate::layout::geometry::LABEL_BYTES;
use crate::os::sys::{self, Room};

/// Inodes beside those of the images: the new `disk` and `catalogue`.
const SPARE_FILES: u64 = 2;

/// What a package takes.
pub struct Need {
    pub stripes: u64,
    /// Bytes of each disk, and files there.
    pub bytes: u64,
    pub files: u64,
}

/// What is free on a disk.
pub struct Free {
    pub disk: usize,
    pub room: Room,
    pub fits: bool,
}

/// Reckons images of files of these lengths, with a catalogue of so many bytes.
pub fn need(store: &Store, lengths: &[u64], catalogue: u64) -> Result<Need, Fault> {
    let numbers = store.numbers();
    let Space { stripes, .. } = numbers.shape.space(lengths, u64::MAX)?;
    let images = lengths.iter().filter(|length| **length > 0);
    let bytes = |length: &u64| numbers.geometry(*length).map_or(0, |one| one.image_bytes());
    let texts = catalogue.next_multiple_of(LABEL_BYTES as u64) + LABEL_BYTES as u64;
    let files = images.clone().count() as u64 + SPARE_FILES;
    Ok(Need { stripes, bytes: images.map(bytes).sum::<u64>() + texts, files })
}

/// What is free on each disk that is there, and whether that is enough.
pub fn free(store: &Store, need: &Need) -> Result<Vec<Free>, Fault> {
    let mut all = Vec::new();
    let there = store.there();
    for disk in &there {
        let Some(one) = store.disk(*disk) else { continue };
        let path = one.folder.at();
        let room = sys::room(&path).map_err(|error| Fault::path(&path, error))?;
        let same = |other: &&usize| {
            store.disk(**other).is_some_and(|other| other.folder.device == one.folder.device)
        };
        let disks = there.iter().filter(same).count() as u64; // that share what is free
        let fits = need.bytes.saturating_mul(disks) <= room.bytes
            && room.files.is_none_or(|files| need.files * disks <= files);
        all.push(Free { disk: *disk, room, fits });
    }
    Ok(all)
}

/// Refuses what does not fit.
pub fn refuse(store: &Store, need: &Need, free: &[Free]) -> Result<(), Fault> {
    let short = |one: &Free| {
        let files = one.room.files.map_or(String::new(), |files| format!(" and {files} files"));
        (!one.fits).then(|| format!("disk {} has {} bytes{files} free", one.disk, one.room.bytes))
    };
    let short: Vec<String> = free.iter().filter_map(short).collect();
    if short.is_empty() {
        return Ok(());
    }
    Err(Fault::No(format!(
        "{}: it does not fit: {} bytes and {} files of each disk are needed, and {}; remove packages first, or put it \
         in another store",
        store.folder.display(),
        need.bytes,
        need.files,
        short.join(", ")
    )))
}
