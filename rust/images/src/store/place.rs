//! What is in the places of a store's disks, before it is known which store they are of. Their
//! folders are held open, locked for a change, and all files are reached below them.

use std::fs::{self, File, Metadata, OpenOptions, TryLockError};
use std::io::{self, ErrorKind};
use std::os::unix::fs::{MetadataExt, OpenOptionsExt};
use std::path::{Path, PathBuf};
use std::rc::Rc;

use super::catalogue::{self, Catalogue};
use super::disk_file::{self, DiskFile};
use super::replace;
use crate::fault::Fault;
use crate::os::folder::held_path;
use crate::os::sys;
use crate::read::set::MOST_DISKS;

/// A file system makes this folder by itself.
const LOST_AND_FOUND: &str = "lost+found";

/// A disk's folder; it is held open, so that its file system stays mounted.
pub struct DiskFolder {
    pub path: PathBuf,
    held: File,
    pub device: u64,
    pub inode: u64,
}

pub enum Seen {
    /// No folder, or one that cannot be opened.
    Nothing(String),
    /// A folder without a whole file `disk`.
    Unnamed(String),
    /// A disk of some store, and its catalogue, if that is whole and of the same store.
    Disk(Rc<DiskFolder>, DiskFile, Option<Rc<Catalogue>>),
}

/// A disk of the store that stands in its place.
pub struct There {
    pub folder: Rc<DiskFolder>,
    pub promise: u64,
    pub copy: Option<Rc<Catalogue>>,
}

/// A place of the store, or what is wrong with it.
pub enum Disk {
    There(There),
    Away(String),
}

/// Where a disk's folder stands.
pub fn disk_path(store: &Path, disk: usize) -> PathBuf {
    store.join(format!("disk-{disk:02}"))
}

/// Whether a folder is a store: it has a folder for a disk, where a bare set has images.
pub fn is_store(folder: &Path) -> bool {
    (0..MOST_DISKS).any(|disk| disk_path(folder, disk).is_dir())
}

impl DiskFolder {
    pub fn open(path: &Path) -> io::Result<DiskFolder> {
        let held = OpenOptions::new().read(true).custom_flags(sys::NO_WAIT).open(path)?;
        let data = held.metadata()?;
        if !data.is_dir() {
            return Err(ErrorKind::NotADirectory.into());
        }
        let folder = DiskFolder { path: path.into(), held, device: data.dev(), inode: data.ino() };
        match fs::metadata(folder.at()) {
            Ok(data) if folder.is(&data) => Ok(folder),
            _ => Err(io::Error::other("/proc is not mounted, and a store is reached through it")),
        }
    }

    fn is(&self, data: &Metadata) -> bool {
        (data.dev(), data.ino()) == (self.device, self.inode)
    }

    /// The folder that is held, whatever is mounted at its path now.
    pub fn at(&self) -> PathBuf {
        held_path(&self.held)
    }

    /// A name in the folder that is held.
    pub fn below(&self, name: &str) -> PathBuf {
        self.at().join(name)
    }

    /// Refuses a folder that is no longer at its path.
    pub fn is_in_place(&self) -> Result<(), Fault> {
        match fs::metadata(&self.path) {
            Ok(data) if self.is(&data) => Ok(()),
            _ => Err(Fault::Failed(format!(
                "{}: its disk was unmounted meanwhile; mount it again",
                self.path.display()
            ))),
        }
    }

    /// The names in the folder, but the one that file systems make.
    pub fn names(&self) -> io::Result<Vec<String>> {
        let mut names = Vec::new();
        for entry in fs::read_dir(self.at())? {
            names.push(entry?.file_name().to_string_lossy().into_owned());
        }
        names.retain(|name| name != LOST_AND_FOUND);
        Ok(names)
    }

    /// What is read of a disk to find its store.
    fn texts(&self) -> DiskTexts {
        let what = match replace::read(&self.below(disk_file::NAME), disk_file::MOST_BYTES) {
            Ok(text) => match DiskFile::parse(&text) {
                Some(file) => {
                    let text = replace::read(&self.below(catalogue::NAME), catalogue::MOST_BYTES);
                    return DiskTexts::Disk(file, text.ok());
                }
                None => "has a damaged file `disk`".into(),
            },
            Err(error) if error.kind() == ErrorKind::NotFound => {
                let empty = self.names().is_ok_and(|names| names.is_empty());
                match empty {
                    true => "is empty: is its disk mounted?".into(),
                    false => "has no file `disk`: it is no disk of a store".into(),
                }
            }
            Err(error) => format!("has a file `disk` that cannot be read: {error}"),
        };
        DiskTexts::Unnamed(what)
    }

    /// Makes the names in the folder last.
    pub fn sync(&self) -> Result<(), Fault> {
        self.held.sync_all().map_err(|error| Fault::path(&self.path, error))
    }
}

/// Locks disks' folders against others that change what is there, until they are closed. In order of
/// device and inode, so that no two wait for each other whatever the places are; `waits` is called
/// once if another has one.
pub fn lock_all<'a>(
    folders: impl Iterator<Item = &'a Rc<DiskFolder>>,
    waits: impl FnOnce(),
) -> Result<(), Fault> {
    let mut ordered: Vec<&DiskFolder> = folders.map(|folder| &**folder).collect();
    let id = |folder: &DiskFolder| (folder.device, folder.inode);
    ordered.sort_by_key(|folder| id(folder));
    ordered.dedup_by_key(|folder| id(folder));
    let mut waits = Some(waits);
    for folder in ordered {
        let locked = match folder.held.try_lock() {
            Err(TryLockError::WouldBlock) => {
                waits.take().into_iter().for_each(|waits| waits());
                folder.held.lock()
            }
            Err(TryLockError::Error(error)) => Err(error),
            Ok(()) => Ok(()),
        };
        locked.map_err(|error| Fault::path(&folder.path, error))?;
    }
    Ok(())
}

/// The folders in the places of all disks that a store may have, or why there is none. What is
/// locked stays so as long as this is there.
pub struct Places(pub(super) Vec<Result<Rc<DiskFolder>, String>>);

impl Places {
    pub fn open(store: &Path) -> Places {
        let folder = |disk| opened(&disk_path(store, disk)).map(Rc::new);
        Places((0..MOST_DISKS).map(folder).collect())
    }

    /// Locks all folders, also those of other stores and in wrong places.
    pub fn lock(&self, waits: impl FnOnce()) -> Result<(), Fault> {
        lock_all(self.0.iter().flatten(), waits)
    }

    /// Looks at all places.
    pub fn look(&self) -> Vec<Seen> {
        let mut copies = Copies::default();
        let seen = |place: &Result<Rc<DiskFolder>, String>| match place {
            Ok(folder) => folder.texts().seen(folder, &mut copies),
            Err(what) => Seen::Nothing(what.clone()),
        };
        self.0.iter().map(seen).collect()
    }

    /// Places that somebody else read, and what is in them.
    pub fn of(texts: impl IntoIterator<Item = PlaceTexts>) -> (Places, Vec<Seen>) {
        let mut copies = Copies::default();
        let judged = |place| match place {
            PlaceTexts::Nothing(what) => (Err(what.clone()), Seen::Nothing(what)),
            PlaceTexts::Read(folder, texts) => {
                let folder = Rc::new(folder);
                let seen = texts.seen(&folder, &mut copies);
                (Ok(folder), seen)
            }
        };
        let (places, seen) = texts.into_iter().map(judged).unzip();
        (Places(places), seen)
    }
}

/// The texts of one place, not judged yet.
pub enum PlaceTexts {
    /// No folder, or one that cannot be opened.
    Nothing(String),
    Read(DiskFolder, DiskTexts),
}

impl PlaceTexts {
    pub fn read(path: &Path) -> PlaceTexts {
        match opened(path) {
            Ok(folder) => {
                let texts = folder.texts();
                PlaceTexts::Read(folder, texts)
            }
            Err(what) => PlaceTexts::Nothing(what),
        }
    }
}

/// What was read below a disk's folder.
pub enum DiskTexts {
    /// No whole file `disk`.
    Unnamed(String),
    /// The file `disk`, and the text of the catalogue, if it can be read.
    Disk(DiskFile, Option<Vec<u8>>),
}

impl DiskTexts {
    /// What is there; a catalogue of another store is none.
    fn seen(self, folder: &Rc<DiskFolder>, copies: &mut Copies) -> Seen {
        let (file, text) = match self {
            DiskTexts::Unnamed(what) => return Seen::Unnamed(what),
            DiskTexts::Disk(file, text) => (file, text),
        };
        if !text.as_ref().is_none_or(|text| copies.has_room(text)) {
            let what = "has one more different catalogue than are read at once (64 MiB)";
            return Seen::Unnamed(what.into());
        }
        let copy = text.and_then(|text| copies.take(text));
        let copy = copy.filter(|copy| copy.numbers.store == file.store);
        Seen::Disk(folder.clone(), file, copy)
    }
}

/// The bytes of different catalogues that are read at once: four of the longest, where two changes that
/// were cut off leave three.
const MOST_COPIES: u64 = 4 * catalogue::MOST_BYTES;

/// Catalogues that were read: equal ones are kept once.
#[derive(Default)]
struct Copies(Vec<(Vec<u8>, Rc<Catalogue>)>);

impl Copies {
    /// Whether there is room for one more that differs from those that were read.
    fn has_room(&self, text: &[u8]) -> bool {
        let all: usize = self.0.iter().map(|(known, _)| known.len()).sum();
        (all + text.len()) as u64 <= MOST_COPIES || self.0.iter().any(|(known, _)| known == text)
    }

    fn take(&mut self, text: Vec<u8>) -> Option<Rc<Catalogue>> {
        if let Some((_, known)) = self.0.iter().find(|(known, _)| *known == text) {
            return Some(known.clone());
        }
        let read = Rc::new(Catalogue::parse(&text)?);
        self.0.push((text, read.clone()));
        Some(read)
    }
}

/// Opens a disk's folder, or says why it cannot be.
fn opened(path: &Path) -> Result<DiskFolder, String> {
    DiskFolder::open(path).map_err(|error| match error.kind() {
        ErrorKind::NotFound => "is not there".into(),
        _ => format!("cannot be opened: {error}"),
    })
}

#[cfg(test)]
mod tests {
    use cuzhaveli::Shape;

    use super::super::catalogue::Numbers;
    use super::*;

    #[test]
    fn only_so_many_different_catalogues_are_read() {
        let shape = Shape::new(5, 4, 512).unwrap();
        let numbers = Numbers { store: [9; 16], shape, unit: 64, group: 128, separate: true };
        let one = Rc::new(Catalogue { numbers, generation: 1, packages: Vec::new() });
        let text = |byte: u8| vec![byte; catalogue::MOST_BYTES as usize];
        let mut copies = Copies::default();
        for byte in 0..4 {
            assert!(copies.has_room(&text(byte)), "{byte}");
            copies.0.push((text(byte), one.clone()));
        }
        assert!(copies.has_room(&text(2)) && !copies.has_room(&text(4)) && !copies.has_room(b"x"));
    }
}
