//! One image, opened for reading: a file or a drive, tested before it is read.

use std::fs::{self, File, Metadata, OpenOptions};
use std::io::{self, ErrorKind, Seek, SeekFrom};
use std::os::unix::fs::{FileExt, MetadataExt, OpenOptionsExt};
use std::path::{Path, PathBuf};
use std::sync::Arc;

use crate::layout::geometry::LABEL_BYTES;
use crate::layout::label::Block;
use crate::os::sys;

/// The bytes that are read at once: few enough to be in the processor's cache for their sums.
pub const BOUNCE: usize = 256 << 10;
/// Less than this is not worth a call of its own.
const LEAST_PART: usize = 16 << 10;

/// Memory for reads past the page cache, which want their place and length in multiples of 4,096.
#[derive(Default)]
pub struct Bounce(Vec<u8>);

impl Bounce {
    /// Room for so many bytes, or for as many as are read at once.
    fn aligned(&mut self, len: usize) -> &mut [u8] {
        let len = len.next_multiple_of(LABEL_BYTES).min(BOUNCE);
        if self.0.len() < len + LABEL_BYTES {
            self.0 = vec![0; len + LABEL_BYTES];
        }
        let start = self.0.as_ptr().align_offset(LABEL_BYTES).min(LABEL_BYTES);
        &mut self.0[start..start + len]
    }
}

pub struct Image {
    pub path: PathBuf,
    file: Arc<File>,
    /// The same past the page cache.
    direct: Option<Arc<File>>,
    /// The drive's number, if it is one.
    pub drive: Option<u64>,
    pub len: u64,
}

/// Opens a file or drive for reading; what is neither is an error, and is not waited for.
pub fn open_to_read(path: &Path, flags: i32) -> io::Result<File> {
    let ours = |data: Metadata| data.is_file() || sys::drive(&data).is_some();
    let odd = || io::Error::new(ErrorKind::InvalidInput, "neither a file nor a drive");
    if !ours(fs::metadata(path)?) {
        return Err(odd());
    }
    let file = OpenOptions::new().read(true).custom_flags(sys::NO_WAIT | flags).open(path)?;
    if ours(file.metadata()?) {
        Ok(file)
    } else {
        Err(odd())
    }
}

impl Image {
    pub fn open(path: &Path) -> io::Result<Image> {
        let mut file = open_to_read(path, 0)?;
        sys::random(&file); // before the first read, which would read ahead
        let drive = sys::drive(&file.metadata()?);
        let len = file.seek(SeekFrom::End(0))?;
        Ok(Image { path: path.into(), file: Arc::new(file), direct: None, drive, len })
    }

    /// From now on reads go past the page cache, if that can be had; says whether.
    pub fn go_direct(&mut self) -> bool {
        let open = || -> io::Result<File> {
            let file = open_to_read(&self.path, sys::DIRECT)?;
            // Some file systems open it and refuse to read.
            read_direct(&file, &mut [&mut [0]], 0, &mut Bounce::default())?;
            self.is(&file.metadata()?).then_some(file).ok_or_else(|| ErrorKind::NotFound.into())
        };
        self.direct = open().ok().map(Arc::new);
        self.direct.is_some()
    }

    /// The same image once more, by the same open file.
    pub fn again(&self) -> Image {
        let (path, file, direct) = (self.path.clone(), self.file.clone(), self.direct.clone());
        Image { path, file, direct, drive: self.drive, len: self.len }
    }

    /// Whether it has become shorter than it was: something has cut it.
    pub fn is_cut(&self) -> bool {
        self.drive.is_none() && !self.file.metadata().is_ok_and(|data| data.len() >= self.len)
    }

    /// Whether this is the same file or drive.
    pub fn is(&self, other: &Metadata) -> bool {
        let id = |data: &Metadata| (data.dev(), data.ino(), data.rdev());
        self.file.metadata().is_ok_and(|data| id(&data) == id(other))
    }

    /// Reads all of the bytes.
    pub fn read(&self, bytes: &mut [u8], offset: u64, bounce: &mut Bounce) -> io::Result<()> {
        match &self.direct {
            Some(file) => read_direct(file, &mut [bytes], offset, bounce),
            None => self.file.read_exact_at(bytes, offset),
        }
    }

    /// Reads all of the bytes, if the kernel has them in memory; says whether.
    pub fn read_now(&self, bytes: &mut [u8], offset: u64) -> bool {
        self.direct.is_none() && sys::read_now(&self.file, bytes, offset)
    }

    /// The open file, for who reads it beside this.
    pub fn file(&self) -> Arc<File> {
        self.file.clone()
    }

    /// Reads all of the bytes of parts that follow one another in the image.
    pub fn read_parts(
        &self,
        parts: &mut [&mut [u8]],
        offset: u64,
        bounce: &mut Bounce,
    ) -> io::Result<()> {
        match (&self.direct, parts) {
            (_, [part]) => self.read(part, offset, bounce),
            (Some(file), parts) => read_direct(file, parts, offset, bounce),
            (None, parts) => read_cached(&self.file, parts, offset, bounce),
        }
    }

    /// Reads a block where a label may stand.
    pub fn block(&self, offset: u64) -> io::Result<Block> {
        let mut block = [0; LABEL_BYTES];
        let len = self.len.saturating_sub(offset).min(LABEL_BYTES as u64) as usize;
        self.read(&mut block[..len], offset, &mut Bounce::default())?;
        Ok(block)
    }

    /// Tells the kernel what is read next.
    pub fn ahead(&self, offset: u64, len: u64) {
        if self.direct.is_none() {
            sys::will_need(&self.file, offset, len);
        }
    }

    /// The number of the device that it is on.
    pub fn device(&self) -> Option<u64> {
        let on = |data: Metadata| sys::drive(&data).map_or(data.dev(), sys::whole_drive);
        self.file.metadata().ok().map(on)
    }
}

/// Reads parts that follow one another, small ones together.
fn read_cached(
    file: &File,
    parts: &mut [&mut [u8]],
    offset: u64,
    bounce: &mut Bounce,
) -> io::Result<()> {
    let mut at = offset;
    for some in parts.chunks_mut(together(parts.first().map_or(0, |part| part.len()))) {
        if let [part] = some {
            file.read_exact_at(part, at)?;
            at += part.len() as u64;
            continue;
        }
        let all: usize = some.iter().map(|part| part.len()).sum();
        let room = &mut bounce.aligned(all)[..all];
        file.read_exact_at(room, at)?;
        Scattered { parts: some.iter_mut(), part: &mut [] }.fill(room);
        at += all as u64;
    }
    Ok(())
}

/// How many parts of about so many bytes are read or written at once.
pub fn together(len: usize) -> usize {
    if len < LEAST_PART {
        (BOUNCE / len.max(1)).max(1)
    } else {
        1
    }
}

/// Reads the whole blocks around parts that follow one another by way of aligned memory.
fn read_direct(
    file: &File,
    parts: &mut [&mut [u8]],
    offset: u64,
    bounce: &mut Bounce,
) -> io::Result<()> {
    let all: usize = parts.iter().map(|part| part.len()).sum();
    let room = bounce.aligned((offset % LABEL_BYTES as u64) as usize + all);
    let mut left = Scattered { parts: parts.iter_mut(), part: &mut [] };
    let mut done = 0;
    while done < all {
        let here = offset + done as u64;
        let skip = (here % LABEL_BYTES as u64) as usize;
        let want = (skip + all - done).next_multiple_of(LABEL_BYTES).min(room.len());
        let got = file.read_at(&mut room[..want], here - skip as u64)?;
        if got <= skip {
            return Err(ErrorKind::UnexpectedEof.into());
        }
        let len = (got - skip).min(all - done);
        left.fill(&room[skip..skip + len]);
        done += len;
    }
    Ok(())
}

/// Parts that are filled one after another.
struct Scattered<'p, 'b> {
    parts: std::slice::IterMut<'p, &'b mut [u8]>,
    /// What is left of the one that is being filled.
    part: &'p mut [u8],
}

impl Scattered<'_, '_> {
    fn fill(&mut self, mut bytes: &[u8]) {
        while !bytes.is_empty() {
            if self.part.is_empty() {
                let Some(next) = self.parts.next() else { return };
                self.part = next;
            }
            let len = bytes.len().min(self.part.len());
            let (now, later) = std::mem::take(&mut self.part).split_at_mut(len);
            now.copy_from_slice(&bytes[..len]);
            (self.part, bytes) = (later, &bytes[len..]);
        }
    }
}
