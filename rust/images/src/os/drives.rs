//! Drives that may be overwritten, and drives that are one.

use std::ffi::OsStr;
use std::fs;
use std::path::Path;

use crate::fault::Fault;
use crate::os::sys;

/// The drives that the words of the command name.
pub struct Overwrite(Vec<u64>);

impl Overwrite {
    pub fn of<'a>(paths: impl Iterator<Item = &'a OsStr>) -> Result<Overwrite, Fault> {
        let number = |path: &Path| match fs::metadata(path).map(|data| sys::drive(&data)) {
            Ok(Some(number)) => Ok(number),
            Ok(None) => Err(Fault::Failed(format!(
                "--overwrite {}: no drive; files are never overwritten",
                path.display()
            ))),
            Err(error) => Err(Fault::path(path, error)),
        };
        paths.map(|path| number(Path::new(path))).collect::<Result<_, _>>().map(Overwrite)
    }

    pub fn has(&self, drive: u64) -> bool {
        self.0.contains(&drive)
    }
}

/// The number of the drive at a path; none for a file, or for nothing.
pub fn drive_at(path: &Path) -> Option<u64> {
    fs::metadata(path).ok().and_then(|data| sys::drive(&data))
}

/// Refuses a drive that another path leads to as well, or of which it is a partition, or the other
/// way round.
pub fn apart(path: &Path, drive: u64, others: &[(&Path, u64)]) -> Result<(), Fault> {
    let whole = sys::whole_drive(drive);
    let same = |(_, other): &&(&Path, u64)| {
        *other == drive || *other == whole || sys::whole_drive(*other) == drive
    };
    match others.iter().find(same) {
        None => Ok(()),
        Some((other, _)) => Err(Fault::Images(format!(
            "{} and {} lead to one drive; each disk needs its own",
            path.display(),
            other.display()
        ))),
    }
}
