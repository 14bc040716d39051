//! One film that is served: any bytes of it, by many at once.

use std::iter;
use std::sync::atomic::{AtomicU64, Ordering};
use std::sync::{Arc, Mutex, PoisonError, RwLock};
use std::thread::sleep;
use std::time::Instant;

use cuzhaveli_images::fault::Fault;
use cuzhaveli_images::layout::geometry::{Geometry, MOST_BYTES};
use cuzhaveli_images::read::film::pieces;
use cuzhaveli_images::read::set::again::FoundPlace;
use cuzhaveli_images::read::set::Set;

use crate::ahead::{Players, Turn};
use crate::cache::{Cache, Key};
use crate::drives::{Drives, LONGEST};
use crate::errand::{self, Errand};
use crate::round::Round;
use crate::unit::{Asked, Unit};
use crate::version::{Piece, Version, AGAIN};

/// About what is kept of a unit beside its cells and its film.
const BESIDE: u64 = 16 << 10;

static NUMBER: AtomicU64 = AtomicU64::new(0);

/// The images of a film that is not empty.
struct Images {
    geometry: Geometry,
    drives: Arc<Drives>,
    version: RwLock<Arc<Version>>,
    looks: Mutex<Looks>,
    players: Mutex<Players>,
}

/// When drives were last asked what images they have, and who has not answered yet.
struct Looks {
    last: Instant,
    round: Round<Option<FoundPlace>>,
}

/// What is read of a unit.
struct Asking<'a> {
    /// The byte of the unit where it begins.
    within: usize,
    pieces: &'a [Piece],
    turn: &'a Turn,
    /// The disks that were late just now.
    late: &'a [usize],
}

pub struct Film {
    number: u64,
    length: u64,
    images: Option<Images>,
    cache: Arc<Cache>,
}

impl Film {
    /// A film by its images; none for an empty one.
    pub fn new(set: Option<Set>, cache: Arc<Cache>, drives: Arc<Drives>) -> Result<Film, Fault> {
        let number = NUMBER.fetch_add(1, Ordering::Relaxed);
        let length = set.as_ref().map_or(0, |set| set.label.geometry.length);
        let images = set.map(|set| Images::new(set, drives)).transpose()?;
        Ok(Film { number, length, images, cache })
    }

    pub fn length(&self) -> u64 {
        self.length
    }

    /// Reads film from a byte on: all of the bytes, which must be within the film, or an error.
    pub fn read(&self, at: u64, bytes: &mut [u8]) -> Result<(), Fault> {
        let end = at.checked_add(bytes.len() as u64).filter(|end| *end <= self.length);
        let (Some(end), Some(images)) = (end, &self.images) else {
            return match bytes {
                [] if at <= self.length => Ok(()),
                _ => Err(Fault::Usage(format!("byte {at} and on: beyond the film"))),
            };
        };
        images.look_again();
        let in_unit = images.geometry.unit as usize * images.geometry.shape.data_len();
        let (mut here, mut rest) = (at, bytes);
        while here < end {
            let place = images.geometry.film_at(here);
            let (unit, within) = place.ok_or_else(|| Fault::No(format!("no byte {here}")))?;
            let (part, after) = rest.split_at_mut(rest.len().min(in_unit - within));
            self.read_unit(images, unit, here, within, part)?;
            (here, rest) = (here + part.len() as u64, after);
        }
        Ok(())
    }

    /// Reads film of one unit, from a byte of the film, which is that byte of the unit. Where too
    /// few drives answer in time, those that are late are waited for, a while at a time: nothing is
    /// kept from others meanwhile.
    fn read_unit(
        &self,
        images: &Images,
        unit: u64,
        at: u64,
        within: usize,
        bytes: &mut [u8],
    ) -> Result<(), Fault> {
        let asked: Vec<Piece> =
            pieces(images.geometry, within as u64, bytes.len() as u64).collect();
        let turn = images.turn(at, bytes.len() as u64, unit);
        let errand = Arc::new(Errand::new(images.drives.clone()));
        let (begun, patience) = (Instant::now(), images.drives.patience());
        let first = [errand::Turn::First, errand::Turn::Without];
        for how in first.into_iter().chain(iter::repeat(errand::Turn::Insists)) {
            let until = Instant::now() + patience;
            let late = errand.begin(until, how);
            let asked = Asking { within, pieces: &asked, turn: &turn, late: &late };
            let read = self.try_unit(images, unit, &asked, &errand, bytes);
            if read.is_ok() || !errand.was_late() || begun.elapsed() > LONGEST {
                return read;
            }
            if how == errand::Turn::Insists {
                sleep(until.saturating_duration_since(Instant::now()));
            }
        }
        Ok(())
    }

    /// Reads film of one unit, as far as it comes in time.
    fn try_unit(
        &self,
        images: &Images,
        unit: u64,
        asking: &Asking,
        errand: &Arc<Errand>,
        bytes: &mut [u8],
    ) -> Result<(), Fault> {
        let Asking { within, pieces, turn, late } = *asking;
        let geometry = images.geometry;
        let stripe = geometry.shape.stripe_len() + geometry.shape.data_len();
        let memory = geometry.unit * stripe as u64 + BESIDE;
        let lease = self.cache.lease(Key { film: self.number, unit }, memory);
        let lock = &*lease.unit;
        if let Ok(kept) = lock.read() {
            if kept.film(unit, pieces, within, bytes) {
                images.ahead(&kept, turn);
                return Ok(());
            }
        }
        let mut kept = lock.write().unwrap_or_else(|poisoned| {
            lock.clear_poison();
            let mut kept = poisoned.into_inner();
            *kept = Unit::default(); // somebody was interrupted within it
            kept
        });
        if !kept.film(unit, pieces, within, bytes) {
            let version = images.version();
            let away = images.drives.away(&version.set, late);
            let asked = Asked { pieces, in_order: turn.in_order, away: &away };
            kept.load(&version, unit, &asked, errand)?;
            if turn.in_order {
                kept.gather(unit);
            }
            if !kept.film(unit, pieces, within, bytes) {
                return Err(Fault::Beyond(format!("unit {unit}: lost from memory")));
            }
        }
        images.ahead(&kept, turn);
        Ok(())
    }
}

impl Drop for Film {
    fn drop(&mut self) {
        self.cache.forget(self.number);
    }
}

impl Images {
    fn new(set: Set, drives: Arc<Drives>) -> Result<Images, Fault> {
        Ok(Images {
            geometry: set.label.geometry,
            drives,
            version: RwLock::new(Arc::new(Version::of(set)?)),
            looks: Mutex::new(Looks { last: Instant::now(), round: Round::default() }),
            players: Mutex::default(),
        })
    }

    fn version(&self) -> Arc<Version> {
        self.version.read().unwrap_or_else(PoisonError::into_inner).clone()
    }

    /// Takes images that came, once in a while; one thread looks, the others go on. A drive that
    /// does not answer soon is not waited for: its answer is taken when it comes.
    fn look_again(&self) {
        let Ok(mut looks) = self.looks.try_lock() else { return };
        let mut until = Instant::now();
        let is_time = looks.last.elapsed() >= AGAIN;
        if !is_time && looks.round.is_over() {
            return;
        }
        let version = self.version();
        if is_time {
            looks.round.ask(&self.drives, 0..self.geometry.disks(), false, |disk| {
                let looker = version.set.looker(disk, false);
                move || looker.look()
            });
            looks.last = until;
            until += self.drives.patience() / 16;
        }
        let found: Vec<FoundPlace> =
            looks.round.collect(until).into_iter().filter_map(|(_, found)| found).collect();
        if found.is_empty() {
            return;
        }
        if let Ok(new) = Version::of(version.set.with(found)) {
            *self.version.write().unwrap_or_else(PoisonError::into_inner) = Arc::new(new);
        }
    }

    /// Tells the kernel what is read next, if it is time.
    fn ahead(&self, kept: &Unit, turn: &Turn) {
        if let Some(next) = turn.ahead {
            let away = self.drives.away(&self.version().set, &[]);
            kept.ahead(next, MOST_BYTES, &self.drives, &away);
        }
    }

    fn turn(&self, at: u64, len: u64, unit: u64) -> Turn {
        let end_of = |unit: u64| match unit < self.geometry.units() {
            true => self.geometry.batch(unit, MOST_BYTES).end_unit(),
            false => u64::MAX,
        };
        let mut players = self.players.lock().unwrap_or_else(PoisonError::into_inner);
        players.turn(at, len, unit, end_of)
    }
}
