//! The file `disk`: which disk of which store a folder is, and the last change that was promised.

use super::sealed;
use crate::layout::label::{hex, name_of};
use crate::layout::sums::SetName;

/// Its name in the disk's folder.
pub const NAME: &str = "disk";
/// No such file has more bytes.
pub const MOST_BYTES: u64 = 4096;

#[derive(Clone, Copy, Debug, PartialEq, Eq)]
pub struct DiskFile {
    pub store: SetName,
    pub disk: usize,
    /// No catalogue of a lower generation is written to this disk any more.
    pub promise: u64,
}

impl DiskFile {
    pub fn text(&self) -> String {
        let DiskFile { store, disk, promise } = self;
        sealed::seal(&format!(
            "cuzhaveli disk 2\nstore {}\ndisk {disk}\npromise {promise}\n",
            hex(store)
        ))
    }

    /// What a text says, if it is that of such a file, byte for byte.
    pub fn parse(text: &[u8]) -> Option<DiskFile> {
        let mut lines = sealed::open(text)?.lines().skip(1);
        let mut value = |name: &str| lines.next()?.strip_prefix(name)?.strip_prefix(' ');
        let store = name_of(value("store")?)?;
        let (disk, promise) = (value("disk")?.parse().ok()?, value("promise")?.parse().ok()?);
        let read = DiskFile { store, disk, promise };
        (read.text().as_bytes() == text).then_some(read)
    }
}

#[cfg(test)]
mod tests {
    use super::*;

    #[test]
    fn read_as_written_and_nothing_else() {
        let file = DiskFile { store: [0xA5; 16], disk: 3, promise: 17 };
        let text = file.text();
        assert_eq!(DiskFile::parse(text.as_bytes()), Some(file));
        let lines = text.rsplit_once("sum").map_or("", |(lines, _)| lines);
        for (old, new) in [
            ("disk 2", "disk 3"),
            ("promise 17", "promise 017"),
            ("promise 17", "promise +17"),
            ("disk 3", "disk x"),
            ("a5a5", "A5a5"),
            ("promise 17\n", "promise 17\nmore\n"),
        ] {
            let changed = sealed::seal(&lines.replacen(old, new, 1));
            assert_eq!(DiskFile::parse(changed.as_bytes()), None, "{new}");
        }
        assert_eq!(DiskFile::parse(b""), None);
    }
}
