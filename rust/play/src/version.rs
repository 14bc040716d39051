//! The images of a film that are open, and what is read of them for what is asked.

use std::ops::Range;
use std::sync::{Arc, Mutex, PoisonError};
use std::time::Duration;

use cuzhaveli_images::fault::Fault;
use cuzhaveli_images::read::set::Set;
use cuzhaveli_images::read::wanted::{Reading, Wanted};

/// A piece, by disk and row.
pub type Piece = (usize, usize);

/// New images and catalogues are looked for this often, and what failed is tried again.
pub const AGAIN: Duration = Duration::from_secs(1);

/// So many plans are kept, one for each choice of disks that are not asked.
const PLANS: usize = 4;

/// The images that are open until others are found.
pub struct Version {
    pub set: Arc<Set>,
    /// What a whole unit takes, by the disks that are there and not asked; the last one first.
    plans: Mutex<Vec<(Vec<usize>, Arc<Wanted>)>>,
}

impl Version {
    pub fn of(set: Set) -> Result<Version, Fault> {
        let version = Version { set: Arc::new(set), plans: Mutex::default() };
        version.whole(&[])?;
        Ok(version)
    }

    /// What a whole unit takes where some disks are not asked.
    pub fn whole(&self, away: &[usize]) -> Result<Arc<Wanted>, Fault> {
        let mut plans = self.plans.lock().unwrap_or_else(PoisonError::into_inner);
        if let Some((_, plan)) = plans.iter().find(|(other, _)| other == away) {
            return Ok(plan.clone());
        }
        let plan = Arc::new(Wanted::film_but(&self.set, away)?);
        plans.truncate(PLANS - 1);
        plans.insert(0, (away.into(), plan.clone()));
        Ok(plan)
    }

    /// What is read for pieces of the film: themselves and, for one on a disk that is lost or not
    /// asked, its row; where a row does not bring it back, or playback goes on in order, the whole
    /// unit.
    pub fn wanted(
        &self,
        pieces: &[Piece],
        in_order: bool,
        away: &[usize],
    ) -> Result<Arc<Wanted>, Fault> {
        let (lost, there): (Vec<Piece>, Vec<Piece>) =
            pieces.iter().partition(|(disk, _)| !self.is_asked(*disk, away));
        let Some((disk, _)) = lost.first() else {
            let single = |(disk, row): &Piece| Reading { disk: *disk, rows: *row..*row + 1 };
            return Ok(Arc::new(Wanted::cells(there.iter().map(single).collect())));
        };
        match rows(&lost) {
            Some(rows) if self.has_rows(*disk, away) && (rows.len() == 1 || !in_order) => {
                Ok(Arc::new(Wanted::with_rows(&self.set, &there, *disk, rows)))
            }
            _ => self.whole(away),
        }
    }

    fn is_asked(&self, disk: usize, away: &[usize]) -> bool {
        self.set.image(disk).is_some() && !away.contains(&disk)
    }

    /// Whether P and all data disks but this one are asked.
    fn has_rows(&self, lost: usize, away: &[usize]) -> bool {
        let p = self.set.label.geometry.shape.disks();
        (0..=p).all(|disk| disk == lost || self.is_asked(disk, away))
    }
}

/// The rows of pieces that are of one disk and follow one another.
fn rows(pieces: &[Piece]) -> Option<Range<usize>> {
    let ((disk, first), (_, last)) = (pieces.first()?, pieces.last()?);
    let rows = *first..*last + 1;
    let fits = pieces.len() == rows.len() && pieces.iter().all(|(one, _)| one == disk);
    fits.then_some(rows)
}

#[cfg(test)]
mod tests {
    use super::rows;

    #[test]
    fn rows_of_one_disk_that_follow_one_another() {
        assert_eq!(rows(&[(3, 1)]), Some(1..2));
        assert_eq!(rows(&[(3, 1), (3, 2), (3, 3)]), Some(1..4));
        assert_eq!(rows(&[(3, 0), (3, 4)]), None); // from one stripe to the next
        assert_eq!(rows(&[(1, 2), (3, 3)]), None);
        assert_eq!(rows(&[]), None);
    }
}
