//! Files of a store's disk: read within limits, replaced whole.

use std::fs::{self, File, OpenOptions};
use std::io::{self, ErrorKind, Read, Write};
use std::os::unix::fs::OpenOptionsExt;
use std::path::Path;

use super::place::DiskFolder;
use crate::fault::Fault;
use crate::os::sys;

/// Reads a file of at most so many bytes; links, pipes, devices and longer files are errors.
pub fn read(path: &Path, most: u64) -> io::Result<Vec<u8>> {
    let mut options = OpenOptions::new();
    let file = options.read(true).custom_flags(sys::NO_FOLLOW | sys::NO_WAIT).open(path)?;
    let data = file.metadata()?;
    if !data.is_file() || data.len() > most {
        return Err(io::Error::new(ErrorKind::InvalidData, "no file of that kind"));
    }
    let mut bytes = Vec::new();
    file.take(most).read_to_end(&mut bytes)?;
    Ok(bytes)
}

/// Replaces a file of a disk's folder, or makes it: after any cut it is the old or the new one, and
/// the new one once this has come back.
pub fn replace(folder: &DiskFolder, name: &str, bytes: &[u8]) -> Result<(), Fault> {
    let (target, new) = (folder.below(name), folder.below(&format!("{name}.new")));
    write_new(&new, bytes).map_err(|error| Fault::path(&new, error))?;
    fs::rename(&new, &target).map_err(|error| Fault::path(&target, error))?;
    folder.sync()
}

/// Writes a file in the place of what may be left there of an earlier try.
fn write_new(path: &Path, bytes: &[u8]) -> io::Result<()> {
    match fs::remove_file(path) {
        Err(error) if error.kind() != ErrorKind::NotFound => return Err(error),
        _ => {}
    }
    let mut options = OpenOptions::new();
    options.write(true).create_new(true).custom_flags(sys::NO_FOLLOW);
    let mut file: File = options.open(path)?;
    file.write_all(bytes)?;
    file.sync_all()
}
