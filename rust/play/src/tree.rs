//! A store as folders and files, each with a number for as long as the tree is there. A file has
//! another number once another film has its name, so that nobody takes the bytes of one for the
//! other's.

use std::collections::{BTreeMap, HashMap};
use std::path::{Path, PathBuf};
use std::sync::{Arc, Mutex, MutexGuard, PoisonError, Weak};
use std::time::Instant;

use cuzhaveli_images::fault::Fault;
use cuzhaveli_images::layout::label::Label;
use cuzhaveli_images::read::set::MOST_DISKS;
use cuzhaveli_images::store::opened::Store;
use cuzhaveli_images::store::place::{disk_path, is_store, PlaceTexts};

use crate::cache::Cache;
use crate::drives::Drives;
use crate::film::Film;
use crate::round::Round;
use crate::stamp::Stamp;
use crate::version::AGAIN;
use crate::{open, report};

/// The number of the folder that holds all.
pub const ROOT: u64 = 1;
/// What the film of a bare set is called.
const FILM: &[u8] = b"film";

/// What has a number.
#[derive(Clone, Debug, PartialEq, Eq, Hash)]
enum Thing {
    Folder,
    /// Its length, and the name of its set; none for an empty one, or a bare set's film.
    File(u64, Option<[u8; 16]>),
}

/// What a number stands for.
struct Node {
    thing: Thing,
    label: Option<Label>,
    film: Weak<Film>,
}

#[derive(Clone, Copy, Debug, PartialEq, Eq)]
pub struct About {
    pub number: u64,
    pub length: u64,
    pub is_folder: bool,
}

/// The names in a folder, and their numbers.
type Folder = BTreeMap<Vec<u8>, u64>;

#[derive(Default)]
struct TreeState {
    /// From `ROOT` on.
    nodes: Vec<Node>,
    numbers: HashMap<(Vec<u8>, Thing), u64>,
    /// What is there now, by the number of the folder.
    folders: HashMap<u64, Folder>,
}

/// What was last seen of the disks.
#[derive(Default)]
struct Looks {
    last: Option<Instant>,
    /// The files of each disk that what is known was read from.
    stamps: HashMap<usize, Stamp>,
    stamping: Round<Stamp>,
    reading: Round<(Stamp, PlaceTexts)>,
    /// Why the store could not be opened the last time.
    fault: Option<String>,
}

pub struct Tree {
    folder: PathBuf,
    is_store: bool,
    cache: Arc<Cache>,
    drives: Arc<Drives>,
    /// Never locked while a disk is asked.
    state: Mutex<TreeState>,
    looks: Mutex<Looks>,
}

impl Tree {
    /// Opens a store, or a folder of images. Waits for every disk, and starts no thread.
    pub fn open(folder: &Path, cache: Arc<Cache>) -> Result<Tree, Fault> {
        let is_store = is_store(folder);
        let mut state = TreeState::default();
        let mut looks = Looks { last: Some(Instant::now()), ..Looks::default() };
        if is_store {
            let stamp = |disk| (disk, Stamp::of(&disk_path(folder, disk)));
            looks.stamps = (0..MOST_DISKS).map(stamp).collect();
            state.take(&Store::open(folder)?);
        } else {
            let (film, label) = open::bare(folder, &cache)?;
            state.begin();
            state.add(FILM, Thing::File(film.length(), None), Some(label));
        }
        let drives = open::drives(folder, is_store);
        let (state, looks) = (Mutex::new(state), Mutex::new(looks));
        Ok(Tree { folder: folder.into(), is_store, cache, drives, state, looks })
    }

    /// What is there now, looked at once in a while; one thread looks, the others go on.
    fn now(&self) -> MutexGuard<'_, TreeState> {
        if let Ok(mut looks) = self.looks.try_lock() {
            if self.is_store && looks.last.is_none_or(|last| last.elapsed() >= AGAIN) {
                self.look(&mut looks);
                looks.last = Some(Instant::now());
            }
        }
        self.state.lock().unwrap_or_else(PoisonError::into_inner)
    }

    /// Reads the catalogues again if one was replaced. A disk that does not answer soon is taken to
    /// be as it was. What is known stays while the store cannot be opened: films of which enough is
    /// there play on.
    fn look(&self, looks: &mut Looks) {
        let patience = self.drives.patience();
        let path = |disk| disk_path(&self.folder, disk);
        looks.stamping.ask(&self.drives, 0..MOST_DISKS, false, |disk| {
            let path = path(disk);
            move || Stamp::of(&path)
        });
        let stamps = looks.stamping.collect(Instant::now() + patience / 4);
        if stamps.iter().all(|(disk, stamp)| looks.stamps.get(disk) == Some(stamp)) {
            return;
        }
        looks.reading.ask(&self.drives, 0..MOST_DISKS, false, |disk| {
            let path = path(disk);
            move || (Stamp::of(&path), PlaceTexts::read(&path))
        });
        let mut places: Vec<PlaceTexts> = Vec::new();
        places.resize_with(MOST_DISKS, || PlaceTexts::Nothing("does not answer".into()));
        let mut seen = Vec::new();
        for (disk, (stamp, texts)) in looks.reading.collect(Instant::now() + patience / 4) {
            places[disk] = texts;
            seen.push((disk, stamp));
        }
        match Store::of(&self.folder, places) {
            Ok(store) => {
                self.state.lock().unwrap_or_else(PoisonError::into_inner).take(&store);
                looks.stamps.extend(seen);
                looks.fault = None;
            }
            Err(fault) => {
                let fault = Some(fault.to_string());
                if looks.fault != fault {
                    let told = fault.as_deref().unwrap_or_default();
                    report::say(format!("{told}; what was there before is served"));
                }
                looks.fault = fault;
            }
        }
    }

    /// What has a name in a folder.
    pub fn find(&self, folder: u64, name: &[u8]) -> Result<About, Fault> {
        let state = self.now();
        let number = state.folders.get(&folder).and_then(|names| names.get(name));
        let about = number.and_then(|number| state.about(*number));
        about.ok_or_else(|| Fault::No("no such name".into()))
    }

    /// What a number stands for, whether it is still there or not.
    pub fn about(&self, number: u64) -> Result<About, Fault> {
        let state = self.state.lock().unwrap_or_else(PoisonError::into_inner);
        state.about(number).ok_or_else(|| Fault::No("no such number".into()))
    }

    /// The names in a folder.
    pub fn names(&self, folder: u64) -> Result<Vec<(Vec<u8>, About)>, Fault> {
        let state = self.now();
        let names = state.folders.get(&folder).into_iter().flatten();
        Ok(names.filter_map(|(name, number)| Some((name.clone(), state.about(*number)?))).collect())
    }

    /// The film of a number; the same one for all who have it open.
    pub fn film(&self, number: u64) -> Result<Arc<Film>, Fault> {
        let (label, open) = self.node(number, |node| (node.label, node.film.upgrade()))?;
        if let Some(film) = open {
            return Ok(film);
        }
        // Without the lock: a disk may take its time.
        let (folder, cache, drives) = (&self.folder, &self.cache, &self.drives);
        let film = Arc::new(open::labelled(folder, self.is_store, label, cache, drives)?);
        self.node(number, |node| match node.film.upgrade() {
            Some(other) => other, // opened by somebody else meanwhile
            None => {
                node.film = Arc::downgrade(&film);
                film
            }
        })
    }

    /// Looks at the node of a file.
    fn node<T>(&self, number: u64, look: impl FnOnce(&mut Node) -> T) -> Result<T, Fault> {
        let mut state = self.state.lock().unwrap_or_else(PoisonError::into_inner);
        let node = number.checked_sub(ROOT).and_then(|at| state.nodes.get_mut(at as usize));
        let file = node.filter(|node| node.thing != Thing::Folder);
        file.map(look).ok_or_else(|| Fault::No("no such file".into()))
    }
}

impl TreeState {
    fn about(&self, number: u64) -> Option<About> {
        let node = self.nodes.get(number.checked_sub(ROOT)? as usize)?;
        Some(match node.thing {
            Thing::Folder => About { number, length: 0, is_folder: true },
            Thing::File(length, _) => About { number, length, is_folder: false },
        })
    }

    /// Forgets what is there; numbers stay.
    fn begin(&mut self) {
        self.folders.clear();
        self.number(b"", Thing::Folder, None);
        self.folders.insert(ROOT, Folder::new());
    }

    /// Takes what a store's catalogue says.
    fn take(&mut self, store: &Store) {
        self.begin();
        for package in &store.catalogue.packages {
            let name = package.name.bytes();
            self.add(&name, Thing::Folder, None);
            for file in &package.files {
                let path = [&name[..], b"/", &file.name.bytes()].concat();
                let label = file.label(store.numbers());
                self.add(&path, Thing::File(file.length, file.set), label);
            }
        }
    }

    /// The number of a thing at a path, given when it is first seen.
    fn number(&mut self, path: &[u8], thing: Thing, label: Option<Label>) -> u64 {
        let next = self.nodes.len() as u64 + ROOT;
        let number = *self.numbers.entry((path.into(), thing.clone())).or_insert(next);
        if number == next {
            self.nodes.push(Node { thing, label, film: Weak::new() });
        }
        number
    }

    /// Adds a thing at a path, with the folders above it.
    fn add(&mut self, path: &[u8], thing: Thing, label: Option<Label>) {
        let mut folder = ROOT;
        for (end, _) in path.iter().enumerate().filter(|(_, byte)| **byte == b'/') {
            folder = self.within(folder, &path[..end], Thing::Folder, None);
        }
        self.within(folder, path, thing, label);
    }

    /// Adds a thing to its folder.
    fn within(&mut self, folder: u64, path: &[u8], thing: Thing, label: Option<Label>) -> u64 {
        let is_folder = thing == Thing::Folder;
        let number = self.number(path, thing, label);
        let name = path.rsplit(|byte| *byte == b'/').next().unwrap_or_default();
        self.folders.entry(folder).or_default().insert(name.into(), number);
        if is_folder {
            self.folders.entry(number).or_default();
        }
        number
    }
}

#[cfg(test)]
mod tests {
    use super::*;

    fn names(state: &TreeState, folder: u64) -> Vec<(&[u8], u64)> {
        state.folders[&folder].iter().map(|(name, number)| (&name[..], *number)).collect()
    }

    #[test]
    fn a_file_that_is_replaced_has_another_number_and_the_old_one_stays() {
        let mut state = TreeState::default();
        state.begin();
        state.add(b"a/b/film", Thing::File(7, Some([1; 16])), None);
        assert_eq!(names(&state, ROOT), [(&b"a"[..], 2)]);
        assert_eq!(
            (names(&state, 2), names(&state, 3)),
            (vec![(&b"b"[..], 3)], vec![(&b"film"[..], 4)])
        );
        state.begin();
        state.add(b"a/b/film", Thing::File(7, Some([2; 16])), None);
        state.add(b"a/film", Thing::File(0, None), None);
        assert_eq!(names(&state, 3), [(&b"film"[..], 5)]);
        assert_eq!(names(&state, 2), [(&b"b"[..], 3), (b"film", 6)]);
        assert_eq!(state.about(4), Some(About { number: 4, length: 7, is_folder: false }));
        state.begin();
        state.add(b"a/b/film", Thing::File(7, Some([1; 16])), None);
        assert_eq!(names(&state, 3), [(&b"film"[..], 4)]);
        assert_eq!((state.about(0), state.about(7)), (None, None));
    }
}
