//! All that is written: images, films, names. A file is written under another name and gets its own
//! once it is whole and synced; a drive is marked first and gets its labels last.

use std::fs::{self, File, Metadata, OpenOptions};
use std::io::{self, ErrorKind, Seek, SeekFrom};
use std::os::unix::fs::{FileExt, MetadataExt, OpenOptionsExt};
use std::path::{Path, PathBuf};

use crate::fault::Fault;
use crate::layout::geometry::LABEL_BYTES;
use crate::layout::label::{Block, Found, Label};
use crate::os::drives::Overwrite;
use crate::os::folder::{part_path, shown};
use crate::os::sys;
use crate::read::image::{together, Image};

pub fn taken(path: &Path) -> Fault {
    Fault::Failed(format!(
        "{} is there already, and nothing is overwritten; remove it or give another name",
        shown(path).display()
    ))
}

/// A file or drive that is being written.
pub struct Output {
    /// Where it is to stand.
    target: PathBuf,
    /// Where it is written: the same for a drive.
    path: PathBuf,
    file: File,
    /// The drive's number, if it is one.
    pub drive: Option<u64>,
    /// Whether it may take the place of what has its name.
    replaces: bool,
}

impl Output {
    /// A new file that nothing stands in the way of.
    pub fn create(target: &Path) -> Result<Output, Fault> {
        if target.symlink_metadata().is_ok() {
            return Err(taken(target));
        }
        Output::create_part(target)
    }

    /// A new file beside what may have its name.
    pub fn create_part(target: &Path) -> Result<Output, Fault> {
        let path = part_path(target);
        let mut options = OpenOptions::new();
        options.read(true).write(true).create_new(true).custom_flags(sys::NO_FOLLOW);
        let file = match options.open(&path) {
            Err(error) if error.kind() == ErrorKind::AlreadyExists => return Err(taken(&path)),
            file => file.map_err(|error| Fault::path(&path, error))?,
        };
        Ok(Output { target: target.into(), path, file, drive: None, replaces: false })
    }

    /// A new file that has its name at once, in a folder that gets its own last.
    pub fn create_named(target: &Path) -> Result<Output, Fault> {
        let mut options = OpenOptions::new();
        options.read(true).write(true).create_new(true).custom_flags(sys::NO_FOLLOW);
        let file = options.open(target).map_err(|error| Fault::path(target, error))?;
        let (target, path) = (target.to_path_buf(), target.to_path_buf());
        Ok(Output { target, path, file, drive: None, replaces: true })
    }

    /// A drive that no one else has and that may be overwritten: it is named, or begins with one of
    /// these blocks.
    pub fn drive(path: &Path, named: &Overwrite, ours: &[Block]) -> Result<Output, Fault> {
        let mut options = OpenOptions::new();
        options.read(true).write(true).custom_flags(sys::EXCLUSIVE | sys::NO_WAIT);
        let file = options.open(path).map_err(|error| busy(path, error))?;
        let data = file.metadata().map_err(|error| Fault::path(path, error))?;
        let Some(number) = sys::drive(&data) else {
            return Err(Fault::Failed(format!("{} is no drive any more", path.display())));
        };
        let output = Output {
            target: path.into(),
            path: path.into(),
            file,
            drive: Some(number),
            replaces: true,
        };
        if named.has(number) || ours.contains(&output.first_block()?) {
            return Ok(output);
        }
        Err(Fault::Images(format!(
            "{0} is a drive that is not marked as this set and disk; if what is on it may be overwritten, say so: \
             --overwrite {0}",
            path.display()
        )))
    }

    /// A file that is an image, to be repaired in place.
    pub fn image(image: &Image) -> Result<Output, Fault> {
        let path = &image.path;
        let mut options = OpenOptions::new();
        options.read(true).write(true).custom_flags(sys::NO_FOLLOW | sys::NO_WAIT);
        let file = options.open(path).map_err(|error| Fault::path(path, error))?;
        let data = file.metadata().map_err(|error| Fault::path(path, error))?;
        if !image.is(&data) {
            return Err(Fault::Failed(format!("{} is another file now", shown(path).display())));
        }
        Ok(Output { target: path.into(), path: path.into(), file, drive: None, replaces: false })
    }

    /// The file in which a rebuild of this disk was begun, if there is one that begins with one of
    /// these blocks.
    pub fn begun(target: &Path, ours: &[Block]) -> Result<Option<Output>, Fault> {
        let path = part_path(target);
        match path.symlink_metadata() {
            Ok(data) if data.is_file() && data.nlink() == 1 => {}
            Ok(_) => return Err(not_ours(&path)), // links would be written through, a pipe waited for
            Err(error) if error.kind() == ErrorKind::NotFound => return Ok(None),
            Err(error) => return Err(Fault::path(&path, error)),
        }
        let mut options = OpenOptions::new();
        options.read(true).write(true).custom_flags(sys::NO_FOLLOW | sys::NO_WAIT);
        let file = options.open(&path).map_err(|error| Fault::path(&path, error))?;
        let data = file.metadata().map_err(|error| Fault::path(&path, error))?;
        let target = target.to_path_buf();
        let output = Output { target, path, file, drive: None, replaces: false };
        let block = output.first_block()?;
        // One that was cut off before its mark was on the disk has nothing else in it.
        let blank = data.len() <= LABEL_BYTES as u64 && Found::of(&block) == Found::Blank;
        if data.is_file() && data.nlink() == 1 && (blank || ours.contains(&block)) {
            return Ok(Some(output));
        }
        Err(not_ours(&output.path))
    }

    /// It may take the place of what has its name.
    pub fn replacing(self) -> Output {
        Output { replaces: true, ..self }
    }

    pub fn path(&self) -> &Path {
        &self.path
    }

    /// Where it is to stand.
    pub fn target(&self) -> &Path {
        &self.target
    }

    /// The first block, filled up with zeros if the file is shorter.
    pub fn first_block(&self) -> Result<Block, Fault> {
        let mut block = [0; LABEL_BYTES];
        let mut done = 0;
        while done < LABEL_BYTES {
            match self.file.read_at(&mut block[done..], done as u64) {
                Ok(0) => break,
                Ok(more) => done += more,
                Err(error) if error.kind() == ErrorKind::Interrupted => {}
                Err(error) => return Err(self.fault(0, &error)),
            }
        }
        Ok(block)
    }

    /// Reads back what was written.
    pub fn read(&self, bytes: &mut [u8], offset: u64) -> io::Result<()> {
        self.file.read_exact_at(bytes, offset)
    }

    /// Gives a file its length; a drive must have it.
    pub fn set_len(&mut self, len: u64) -> Result<(), Fault> {
        if self.drive.is_none() {
            return self.file.set_len(len).map_err(|error| self.fault(0, &error));
        }
        let has = self.file.seek(SeekFrom::End(0)).map_err(|error| self.fault(0, &error))?;
        if has < len {
            let path = self.path.display();
            return Err(Fault::Failed(format!("{path} has {has} bytes, and {len} are needed")));
        }
        Ok(())
    }

    /// Takes room for so many bytes of a file, whose length it then is.
    pub fn reserve(&self, len: u64) -> io::Result<()> {
        sys::reserve(&self.file, len)
    }

    pub fn write(&self, bytes: &[u8], offset: u64) -> Result<(), Fault> {
        let written = self.file.write_all_at(bytes, offset);
        written.map_err(|error| self.fault(offset, &error))
    }

    /// Writes parts one after another, small ones together.
    pub fn write_parts(&self, parts: &[&[u8]], offset: u64) -> Result<(), Fault> {
        let mut at = offset;
        for some in parts.chunks(together(parts.first().map_or(0, |part| part.len()))) {
            match some {
                [part] => self.write(part, at)?,
                small => self.write(&small.concat(), at)?,
            }
            at += some.iter().map(|part| part.len() as u64).sum::<u64>();
        }
        Ok(())
    }

    pub fn sync(&self) -> Result<(), Fault> {
        self.file.sync_all().map_err(|error| self.fault(0, &error))
    }

    /// Marks an image as one that is being written, so that none takes it for whole. A drive must
    /// be long enough; a file gets its length once its mark is on the disk.
    pub fn mark(&mut self, label: &Label, disk: usize, len: u64) -> Result<(), Fault> {
        if self.drive.is_some() {
            self.set_len(len)?;
        }
        self.write(&label.mark(disk), 0)?;
        self.sync()?;
        self.set_len(len)
    }

    /// Labels an image whose cells and checksum blocks are all written: a drive's after a sync of
    /// these.
    pub fn label(&self, label: &Label, disk: usize) -> Result<(), Fault> {
        if self.drive.is_some() {
            self.sync()?;
        }
        let block = label.block(disk);
        self.write(&block, label.geometry.end())?;
        self.write(&block, 0)?;
        self.sync()
    }

    /// Gives a file its name; the folder is to be synced. What another program has put in its place
    /// gets none, or is told if that was done at the last moment.
    pub fn name(&self) -> Result<(), Fault> {
        if self.drive.is_some() {
            return Ok(());
        }
        self.stands_at(&self.path)?;
        let named = match self.replaces {
            true => fs::rename(&self.path, &self.target),
            false => sys::rename_new(&self.path, &self.target),
        };
        named.map_err(|error| match error.kind() {
            ErrorKind::AlreadyExists => taken(&self.target),
            _ => Fault::path(&self.path, error),
        })?;
        self.stands_at(&self.target)
    }

    /// Refuses a path at which another file stands than the one that was written.
    fn stands_at(&self, path: &Path) -> Result<(), Fault> {
        match self.is_at(path) {
            true => Ok(()),
            false => Err(Fault::Failed(format!(
                "{}: another program has put something else there; remove it, and run this again",
                shown(path).display()
            ))),
        }
    }

    fn is_at(&self, path: &Path) -> bool {
        let id = |data: Metadata| (data.dev(), data.ino());
        let own = self.file.metadata().map(id).ok();
        own.is_some() && own == path.symlink_metadata().map(id).ok()
    }

    /// Takes a new file away again, as far as that can be done.
    pub fn discard(self) {
        if self.drive.is_none() && self.is_at(&self.path) {
            let _ = fs::remove_file(&self.path);
        }
    }

    fn fault(&self, byte: u64, error: &io::Error) -> Fault {
        Fault::byte(&self.path, byte, error)
    }
}

fn busy(path: &Path, error: io::Error) -> Fault {
    if error.kind() == ErrorKind::ResourceBusy {
        return Fault::Failed(format!(
            "{}: a file system or another program has this drive; unmount it, or give another",
            path.display()
        ));
    }
    Fault::path(path, error)
}

fn not_ours(path: &Path) -> Fault {
    Fault::Images(format!(
        "{} is not of this rebuild; remove it to begin anew",
        shown(path).display()
    ))
}
