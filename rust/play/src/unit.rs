//! One unit in memory: as much of it as was asked for, verified.

use std::sync::Arc;
use std::time::Instant;

use cuzhaveli_images::fault::Fault;
use cuzhaveli_images::os::pace::Pace;
use cuzhaveli_images::read::film::pieces;
use cuzhaveli_images::read::reader::Reader;

use crate::drives::Drives;
use crate::errand::Errand;
use crate::lane::Kind;
use crate::version::{Piece, Version, AGAIN};

/// A reader of a unit of the images that are open.
struct Loaded {
    reader: Reader,
    version: Arc<Version>,
    unit: u64,
}

impl Loaded {
    fn new(version: Arc<Version>, unit: u64) -> Loaded {
        let reader = Reader::new(version.set.clone(), 1, Pace::new(None)).alone();
        Loaded { reader, version, unit }
    }

    fn begin_anew(&mut self) -> &mut Loaded {
        *self = Loaded::new(self.version.clone(), self.unit);
        self
    }

    /// Brings pieces into memory; what is beyond mending, if they cannot all be had.
    fn load(&mut self, asked: &Asked, errand: &Arc<Errand>) -> Result<Option<String>, Fault> {
        let geometry = self.reader.geometry();
        let pieces = asked.pieces;
        let wanted = self.version.wanted(pieces, asked.in_order, asked.away)?;
        self.reader.through(Some(errand.clone()));
        let beyond = self.reader.load(geometry.batch_of(self.unit, 1), &wanted);
        self.reader.through(None);
        let beyond = beyond?;
        if self.reader.holds(0, pieces.iter().copied()) {
            return Ok(None);
        }
        let told = beyond.first().map(|one| one.told(geometry.shape));
        Ok(Some(told.unwrap_or_else(|| format!("unit {}: too many disks are lost", self.unit))))
    }
}

/// What is asked of a unit.
pub struct Asked<'a> {
    pub pieces: &'a [Piece],
    /// Whether playback goes on in order.
    pub in_order: bool,
    /// The disks that are there and not asked.
    pub away: &'a [usize],
}

/// All film of a unit, once all of it was in memory: what is read in order is compared once.
struct Whole {
    unit: u64,
    film: Vec<u8>,
}

#[derive(Default)]
pub struct Unit {
    loaded: Option<Loaded>,
    whole: Option<Whole>,
    /// When something of it could not be made right.
    failed: Option<Instant>,
}

impl Unit {
    /// Copies film of a unit from a byte of its film on, if these pieces of it are in memory; says
    /// whether.
    pub fn film(&self, unit: u64, pieces: &[Piece], from: usize, film: &mut [u8]) -> bool {
        let whole = self.whole.as_ref().filter(|whole| whole.unit == unit);
        if let Some(bytes) = whole.and_then(|whole| whole.film.get(from..from + film.len())) {
            film.copy_from_slice(bytes);
            return true;
        }
        let Some(Loaded { reader, .. }) = &self.loaded else { return false };
        let here = reader.batch() == reader.geometry().batch_of(unit, 1);
        let holds = here && reader.holds(0, pieces.iter().copied());
        holds && reader.film(0, from, film).is_ok()
    }

    /// Copies all film of a unit, if all of it is in memory, for those who read on in it.
    pub fn gather(&mut self, unit: u64) {
        let Some(Loaded { reader, .. }) = &self.loaded else { return };
        let geometry = reader.geometry();
        let batch = geometry.batch_of(unit, 1);
        let bytes = batch.count * geometry.shape.data_len();
        let all = pieces(geometry, 0, bytes as u64);
        if reader.batch() != batch || !reader.holds(0, all) {
            return;
        }
        let mut film = self.whole.take().map(|whole| whole.film).unwrap_or_default();
        film.resize(bytes, 0);
        if reader.film(0, 0, &mut film).is_ok() {
            self.whole = Some(Whole { unit, film });
        }
    }

    /// Brings pieces of a unit into memory. What failed is tried again after a while, or where
    /// other images are there.
    pub fn load(
        &mut self,
        version: &Arc<Version>,
        unit: u64,
        asked: &Asked,
        errand: &Arc<Errand>,
    ) -> Result<(), Fault> {
        let same = self.loaded.as_ref().is_some_and(|one| Arc::ptr_eq(&one.version, version));
        let again = self.failed.is_some_and(|failed| failed.elapsed() >= AGAIN);
        if !same || again {
            let loaded = Some(Loaded::new(version.clone(), unit));
            *self = Unit { loaded, ..Unit::default() };
        }
        let Some(loaded) = &mut self.loaded else { return Err(beyond(unit)) };
        if loaded.unit != unit {
            (loaded.unit, self.failed) = (unit, None);
        }
        if self.failed.is_some() {
            return Err(beyond(unit));
        }
        match loaded.load(asked, errand)? {
            None => Ok(()),
            Some(told) if errand.was_late() => Err(Fault::Beyond(told)),
            // Once more from nothing: what was bad when it was read may have been repaired since.
            Some(_) => {
                errand.forget();
                let told = loaded.begin_anew().load(asked, errand)?;
                let failed = told.is_some() && !errand.was_late();
                self.failed = failed.then(Instant::now);
                told.map_or(Ok(()), |told| Err(Fault::Beyond(told)))
            }
        }
    }

    /// Tells the kernel what is read next, but of disks that are not asked.
    pub fn ahead(&self, unit: u64, bytes: u64, drives: &Drives, away: &[usize]) {
        let Some(Loaded { reader, version, .. }) = &self.loaded else { return };
        let geometry = reader.geometry();
        let Ok(wanted) = version.whole(away) else { return };
        if unit >= geometry.units() {
            return;
        }
        reader.coming(geometry.batch(unit, bytes), &wanted, |disk, image, at, len| {
            if let Some(lane) = drives.lane(disk).filter(|_| !away.contains(&disk)) {
                let image = image.again();
                lane.ask(Kind::Advice, false, move || image.ahead(at, len));
            }
        });
    }
}

fn beyond(unit: u64) -> Fault {
    Fault::Beyond(format!("unit {unit}: it could not be made right just now"))
}
