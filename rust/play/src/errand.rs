//! What one load reads: asked of all drives at once, and waited for until one moment.

use std::collections::BTreeMap;
use std::fs::File;
use std::io::{self, ErrorKind};
use std::os::unix::fs::FileExt;
use std::sync::mpsc::{Receiver, RecvTimeoutError};
use std::sync::{Arc, Mutex, MutexGuard, PoisonError};
use std::time::{Duration, Instant};

use cuzhaveli_images::read::image::{Image, BOUNCE};
use cuzhaveli_images::read::source::{is_late, late, Source};

use crate::drives::Drives;
use crate::lane::Kind;

/// How a read is tried.
#[derive(Clone, Copy, Debug, PartialEq, Eq)]
pub enum Turn {
    /// What is late is left, to be computed from others.
    First,
    /// Without the disks that were late, or are slow.
    Without,
    /// Nothing else is left: slow drives are asked too.
    Insists,
}

/// A file by its address, and a byte of it.
type At = (usize, u64);

/// Bytes of a file.
struct Bytes {
    at: u64,
    len: usize,
}

/// What a drive was asked for: stretches of one file.
struct Asked {
    file: Arc<File>,
    disk: usize,
    stretches: Vec<Vec<Bytes>>,
    len: usize,
}

impl Asked {
    fn new(disk: usize, file: Arc<File>, at: u64, len: usize) -> Asked {
        Asked { file, disk, stretches: vec![vec![Bytes { at, len }]], len }
    }

    /// Adds bytes that are after the others.
    fn add(&mut self, at: u64, len: usize) {
        self.len += len;
        match self.stretches.last_mut() {
            Some(last) if last.last().is_some_and(|end| end.at + end.len as u64 == at) => {
                last.push(Bytes { at, len });
            }
            _ => self.stretches.push(vec![Bytes { at, len }]),
        }
    }
}

type Answer = Vec<(u64, usize, io::Result<Vec<u8>>)>;

/// What came, and how many bytes of it are not taken yet.
struct Came {
    len: usize,
    read: Result<Vec<u8>, ErrorKind>,
    left: usize,
}

struct Inner {
    until: Instant,
    turn: Turn,
    /// The disks that were late.
    late: Vec<usize>,
    /// What is expected and not asked yet.
    todo: BTreeMap<At, (usize, Arc<File>, usize)>,
    /// Where it is that was asked, and the number of its answer.
    asked: BTreeMap<At, (usize, usize)>,
    coming: Vec<Option<(usize, Receiver<Answer>)>>,
    came: BTreeMap<At, Came>,
    /// Every file that was asked: its address is not another's meanwhile.
    files: Vec<Arc<File>>,
}

pub struct Errand {
    drives: Arc<Drives>,
    inner: Mutex<Inner>,
}

impl Errand {
    pub fn new(drives: Arc<Drives>) -> Errand {
        let inner = Inner {
            until: Instant::now(),
            turn: Turn::First,
            late: Vec::new(),
            todo: BTreeMap::new(),
            asked: BTreeMap::new(),
            coming: Vec::new(),
            came: BTreeMap::new(),
            files: Vec::new(),
        };
        Errand { drives, inner: Mutex::new(inner) }
    }

    fn lock(&self) -> MutexGuard<'_, Inner> {
        self.inner.lock().unwrap_or_else(PoisonError::into_inner)
    }

    /// From now on answers are waited for until that moment. Gives the disks that were late before.
    pub fn begin(&self, until: Instant, turn: Turn) -> Vec<usize> {
        let mut inner = self.lock();
        (inner.until, inner.turn) = (until, turn);
        std::mem::take(&mut inner.late)
    }

    /// Whether something did not come in time since it was begun.
    pub fn was_late(&self) -> bool {
        !self.lock().late.is_empty()
    }

    /// Forgets what came: all is asked for again.
    pub fn forget(&self) {
        let mut inner = self.lock();
        (inner.asked, inner.came, inner.coming) = Default::default();
        inner.todo.clear();
    }

    fn get(
        &self,
        disk: usize,
        image: &Image,
        bytes: &mut [u8],
        at: u64,
        until: Option<Instant>,
    ) -> io::Result<()> {
        let mut inner = self.lock();
        let until = until.map_or(inner.until, |until| until.min(inner.until));
        let done = inner.take(&self.drives, disk, image, bytes, at, until);
        if done.as_ref().is_err_and(is_late) && !inner.late.contains(&disk) {
            inner.late.push(disk);
        }
        done
    }
}

impl Source for Errand {
    fn expect(&self, disk: usize, image: &Image, at: u64, len: usize) {
        self.lock().expect(disk, image.file(), at, len);
    }

    fn read(&self, disk: usize, image: &Image, bytes: &mut [u8], at: u64) -> io::Result<()> {
        self.get(disk, image, bytes, at, None)
    }

    fn soon(&self, disk: usize, image: &Image, bytes: &mut [u8], at: u64) -> io::Result<()> {
        let until = Instant::now() + self.drives.patience() / 4;
        self.get(disk, image, bytes, at, Some(until))
    }

    fn gives_up(&self) -> bool {
        let inner = self.lock();
        inner.turn == Turn::First && !inner.late.is_empty()
    }
}

impl Inner {
    /// Adds bytes to what is asked for next.
    fn expect(&mut self, disk: usize, file: Arc<File>, at: u64, len: usize) {
        let id = Arc::as_ptr(&file) as usize;
        if len > 0 && !self.covers(id, at) {
            self.todo.insert((id, at), (disk, file, len));
        }
    }

    /// Whether a byte of a file came or was asked for.
    fn covers(&self, id: usize, at: u64) -> bool {
        let holds = |(start, len): (u64, usize)| at < start + len as u64;
        let came = self.came.range(..=(id, at)).next_back();
        let asked = self.asked.range(..=(id, at)).next_back();
        came.is_some_and(|((file, start), one)| *file == id && holds((*start, one.len)))
            || asked.is_some_and(|((file, start), one)| *file == id && holds((*start, one.0)))
    }

    /// Asks the drives for all that is expected.
    fn send(&mut self, drives: &Drives) {
        let mut all: Vec<Asked> = Vec::new();
        for ((_, at), (disk, file, len)) in std::mem::take(&mut self.todo) {
            match all.last_mut() {
                Some(last) if Arc::ptr_eq(&last.file, &file) && last.len + len <= BOUNCE => {
                    last.add(at, len);
                }
                _ => all.push(Asked::new(disk, file, at, len)),
            }
        }
        all.into_iter().for_each(|asked| self.ask(drives, asked));
    }

    fn ask(&mut self, drives: &Drives, asked: Asked) {
        let id = Arc::as_ptr(&asked.file) as usize;
        let places: Vec<(u64, usize)> =
            asked.stretches.iter().flatten().map(|one| (one.at, one.len)).collect();
        if !self.files.iter().any(|file| Arc::ptr_eq(file, &asked.file)) {
            self.files.push(asked.file.clone());
        }
        let insist = self.turn == Turn::Insists;
        let lane = drives.lane(asked.disk);
        let coming = lane.and_then(|lane| lane.ask(Kind::Read, insist, move || read(asked)));
        let Some(coming) = coming else { return };
        let number = self.coming.len();
        self.coming.push(Some((id, coming)));
        for (at, len) in places {
            self.asked.insert((id, at), (len, number));
        }
    }

    /// Copies bytes that came, or come until a moment.
    fn take(
        &mut self,
        drives: &Drives,
        disk: usize,
        image: &Image,
        bytes: &mut [u8],
        at: u64,
        until: Instant,
    ) -> io::Result<()> {
        let file = image.file();
        let id = Arc::as_ptr(&file) as usize;
        let mut done = 0;
        while done < bytes.len() {
            let here = at + done as u64;
            let rest = &mut bytes[done..];
            if let Some(copied) = self.copy(id, here, rest) {
                done += copied?;
                continue;
            }
            let asked = self.asked.range(..=(id, here)).next_back();
            let number = asked
                .filter(|((file, start), (len, _))| *file == id && here < start + *len as u64)
                .map(|(_, (_, number))| *number);
            match number {
                Some(number) => self.wait(number, until)?,
                None if is_here(drives, disk, image, rest, here) => {
                    let end = here + rest.len() as u64;
                    self.todo.retain(|(file, at), _| *file != id || *at < here || *at >= end);
                    return Ok(());
                }
                None => {
                    self.send(drives);
                    if !self.covers(id, here) {
                        self.ask(drives, Asked::new(disk, file.clone(), here, rest.len()));
                    }
                    if !self.covers(id, here) {
                        return Err(late());
                    }
                }
            }
        }
        Ok(())
    }

    /// Copies from what came: how much, or why not; none where nothing came yet. What failed as
    /// part of more is not known for itself.
    fn copy(&mut self, id: usize, here: u64, to: &mut [u8]) -> Option<io::Result<usize>> {
        let ((file, start), came) = self.came.range_mut(..=(id, here)).next_back()?;
        let (start, skip) = (*start, (here - start) as usize);
        if *file != id || skip >= came.len {
            return None;
        }
        match &came.read {
            Ok(bytes) => {
                let from = &bytes[skip..];
                let len = from.len().min(to.len());
                to[..len].copy_from_slice(&from[..len]);
                came.left = came.left.saturating_sub(len);
                if came.left == 0 {
                    self.came.remove(&(id, start));
                }
                Some(Ok(len))
            }
            Err(kind) if to.len() >= came.len => Some(Err((*kind).into())),
            Err(_) => {
                self.came.remove(&(id, start));
                None
            }
        }
    }

    /// Waits for an answer.
    fn wait(&mut self, number: usize, until: Instant) -> io::Result<()> {
        let Some((id, coming)) = self.coming.get_mut(number).and_then(Option::as_mut) else {
            self.asked.retain(|_, (_, other)| *other != number);
            return Ok(());
        };
        let id = *id;
        let left = until.saturating_duration_since(Instant::now());
        match coming.recv_timeout(left.max(Duration::from_micros(1))) {
            Ok(answer) => {
                for (at, len, read) in answer {
                    let read = read.map_err(|error| error.kind());
                    self.came.insert((id, at), Came { len, read, left: len });
                }
            }
            Err(RecvTimeoutError::Timeout) => return Err(late()),
            Err(RecvTimeoutError::Disconnected) => {
                self.coming[number] = None;
                self.asked.retain(|_, (_, other)| *other != number);
                return Err(late());
            }
        }
        self.coming[number] = None;
        self.asked.retain(|_, (_, other)| *other != number);
        Ok(())
    }
}

/// Reads bytes that the kernel has in memory; says whether it has. That is faster by half than to
/// ask for them, and not tried where the drive may keep it waiting.
fn is_here(drives: &Drives, disk: usize, image: &Image, bytes: &mut [u8], at: u64) -> bool {
    let Some(lane) = drives.lane(disk).filter(|lane| lane.is_quick()) else { return false };
    let begun = Instant::now();
    let here = image.read_now(bytes, at);
    lane.took(begun.elapsed());
    here
}

/// Reads what a drive was asked for: each stretch or, where that fails, its parts.
fn read(asked: Asked) -> Answer {
    let get = |at: u64, len: usize| {
        let mut bytes = vec![0; len];
        asked.file.read_exact_at(&mut bytes, at).map(|()| bytes)
    };
    let mut answer = Vec::new();
    for stretch in &asked.stretches {
        let (Some(first), Some(last)) = (stretch.first(), stretch.last()) else { continue };
        let len = (last.at - first.at) as usize + last.len;
        match get(first.at, len) {
            Ok(bytes) => answer.push((first.at, len, Ok(bytes))),
            Err(error) if stretch.len() == 1 => answer.push((first.at, len, Err(error))),
            Err(_) => {
                answer.extend(stretch.iter().map(|one| (one.at, one.len, get(one.at, one.len))));
            }
        }
    }
    answer
}
