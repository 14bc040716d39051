//! Folders: made, locked against a second writer, held open, and synced so that names last; and the
//! name of what is not whole yet.

use std::fs::{self, File, OpenOptions};
use std::io::{self, ErrorKind};
use std::os::fd::AsRawFd;
use std::os::unix::fs::OpenOptionsExt;
use std::path::{Path, PathBuf};

use crate::fault::Fault;
use crate::os::sys;

/// Where the kernel shows what this program has open.
const HELD: &str = "/proc/self/fd";

/// The path of a folder that is held open, whatever is at its own path now.
pub fn held_path(folder: &File) -> PathBuf {
    Path::new(HELD).join(folder.as_raw_fd().to_string())
}

/// What messages call a path: below a folder that is held open, the path of that folder.
pub fn shown(path: &Path) -> PathBuf {
    let mut parts = path.strip_prefix(HELD).map_or(Path::new("").components(), Path::components);
    let held = parts.next().and_then(|number| fs::read_link(Path::new(HELD).join(number)).ok());
    match (held, parts.as_path()) {
        (Some(folder), name) if name.as_os_str().is_empty() => folder,
        (Some(folder), name) => folder.join(name),
        (None, _) => path.into(),
    }
}

/// Opens a folder. What is none is an error, and a pipe is not waited for.
fn open(folder: &Path) -> io::Result<File> {
    OpenOptions::new().read(true).custom_flags(sys::FOLDER | sys::NO_WAIT).open(folder)
}

/// Locks a folder against a second program that writes there, until the file is closed.
pub fn lock(folder: &Path) -> Result<File, Fault> {
    let file = open(folder).map_err(|error| Fault::path(folder, error))?;
    match file.try_lock() {
        Ok(()) => Ok(file),
        Err(fs::TryLockError::WouldBlock) => Err(Fault::Failed(format!(
            "{}: another cuzhaveli writes there; wait until it has ended",
            folder.display()
        ))),
        Err(fs::TryLockError::Error(error)) => Err(Fault::path(folder, error)),
    }
}

/// Makes names in a folder last.
pub fn sync_folder(folder: &Path) -> Result<(), Fault> {
    let synced = open(folder).and_then(|file| file.sync_all());
    synced.map_err(|error| Fault::path(folder, error))
}

/// The folder that has a path.
pub fn folder_of(path: &Path) -> &Path {
    match path.parent() {
        Some(folder) if folder != Path::new("") => folder,
        _ => Path::new("."),
    }
}

/// Makes a folder that is not there, so that its name lasts.
pub fn make_folder(folder: &Path) -> Result<(), Fault> {
    match fs::create_dir(folder) {
        Ok(()) => sync_folder(folder_of(folder)),
        Err(error) if error.kind() == ErrorKind::AlreadyExists => Ok(()),
        Err(error) => Err(Fault::path(folder, error)),
    }
}

/// Where a file is written until it is whole.
pub fn part_path(path: &Path) -> PathBuf {
    let mut part = path.as_os_str().to_owned();
    part.push(".part");
    part.into()
}

#[cfg(test)]
mod tests {
    use super::*;

    #[test]
    fn held_folders_are_shown_by_their_own_path() {
        let folder = open(Path::new("/usr/.")).unwrap();
        let held = held_path(&folder);
        assert_eq!(shown(&held), Path::new("/usr"));
        assert_eq!(shown(&held.join("a/b")), Path::new("/usr/a/b"));
        for other in ["/proc/self/fd", "/proc/self/fd/x/y", "/proc/self", "a", ""] {
            assert_eq!(shown(Path::new(other)), Path::new(other));
        }
    }
}
