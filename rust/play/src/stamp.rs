//! Whether files of a store were replaced, told without reading them.

use std::fs;
use std::os::unix::fs::MetadataExt;
use std::path::{Path, PathBuf};

use cuzhaveli_images::store::{catalogue, disk_file};

/// What a file is known by: device, inode, length, and when it was changed.
type Id = (u64, u64, u64, i64, i64);

/// The files of one disk that say what is in a store, each replaced and never changed.
#[derive(Clone, Copy, Debug, Default, PartialEq, Eq)]
pub struct Stamp([Option<Id>; 2]);

impl Stamp {
    pub fn of(disk: &Path) -> Stamp {
        let id = |path: PathBuf| {
            let data = fs::metadata(path).ok()?;
            Some((data.dev(), data.ino(), data.len(), data.ctime(), data.ctime_nsec()))
        };
        Stamp([disk_file::NAME, catalogue::NAME].map(|name| id(disk.join(name))))
    }
}
