//! Where the bytes of images come from: the images themselves or, for readers that cannot wait for a
//! slow drive, somebody who asks the drives in their place.

use std::error::Error;
use std::fmt;
use std::io;

use crate::read::image::Image;

/// What a reader asks instead of its images.
pub trait Source: Send + Sync {
    /// These bytes of the image of a disk are read soon.
    fn expect(&self, disk: usize, image: &Image, at: u64, len: usize);

    /// Reads all of the bytes; [`late`] where they do not come in time.
    fn read(&self, disk: usize, image: &Image, bytes: &mut [u8], at: u64) -> io::Result<()>;

    /// The same of checksums, which every image has: the next image is asked where these do not
    /// come soon, and this one once more after all others.
    fn soon(&self, disk: usize, image: &Image, bytes: &mut [u8], at: u64) -> io::Result<()>;

    /// Whether something was late, and whoever wants the bytes wants something else instead: the
    /// rest is not read for it.
    fn gives_up(&self) -> bool;
}

#[derive(Debug)]
struct Late;

impl fmt::Display for Late {
    fn fmt(&self, f: &mut fmt::Formatter) -> fmt::Result {
        f.write_str("the drive did not answer in time")
    }
}

impl Error for Late {}

/// The error of bytes that may come yet: they are not bad.
pub fn late() -> io::Error {
    io::Error::other(Late)
}

/// Whether an error is [`late`], which no drive answers.
pub fn is_late(error: &io::Error) -> bool {
    error.get_ref().is_some_and(|inner| inner.is::<Late>())
}

#[cfg(test)]
mod tests {
    use super::*;

    #[test]
    fn only_late_is_late() {
        assert!(is_late(&late()));
        assert!(!is_late(&io::ErrorKind::TimedOut.into()));
        assert!(!is_late(&io::Error::other("late")));
    }
}
