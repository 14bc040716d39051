//! Whether a further file can be opened. Where none can, what could not be opened is not lost.

use std::fs::File;
use std::path::Path;

use crate::fault::Fault;
use crate::os::sys;

/// Refuses to go on where no further file can be opened. It is asked while all that was opened before
/// is still open, so that nothing else can have failed for want of it.
pub fn can_open(folder: &Path) -> Result<(), Fault> {
    match File::open(folder) {
        Err(error) if sys::is_short_of_files(&error) => Err(Fault::Failed(format!(
            "{}: {error}: {} may be open at once; allow more (ulimit -n), and run it again",
            folder.display(),
            sys::raise_open_files()
        ))),
        _ => Ok(()),
    }
}
