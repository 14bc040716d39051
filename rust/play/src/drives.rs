//! The drives of a store or a set, and which of them are left alone now.

use std::path::Path;
use std::sync::{Arc, OnceLock};
use std::time::{Duration, Instant};

use cuzhaveli_images::read::set::{Set, MOST_DISKS};

use crate::lane::Lane;

/// How long a drive is waited for where the others have what is needed.
pub const PATIENCE: Duration = Duration::from_millis(200);
/// How long drives are waited for where nothing else is left.
pub const LONGEST: Duration = Duration::from_secs(60);
/// Disks of which a set can be read without.
const SPARE: usize = 2;

static GIVEN: OnceLock<Duration> = OnceLock::new();

/// Sets the patience, if none is set; answers the one that holds.
pub fn patience(given: Duration) -> Duration {
    *GIVEN.get_or_init(|| given.clamp(Duration::from_millis(1), LONGEST))
}

pub struct Drives {
    patience: Duration,
    lanes: Vec<Arc<Lane>>,
}

impl Drives {
    /// The drives of a folder, which has a name for each.
    pub fn of(name: impl Fn(usize) -> std::path::PathBuf) -> Drives {
        let patience = patience(PATIENCE);
        let shown = |disk: usize| Path::new(&name(disk)).display().to_string();
        let lane = |disk: usize| Arc::new(Lane::new(shown(disk), patience));
        Drives { patience, lanes: (0..MOST_DISKS).map(lane).collect() }
    }

    pub fn patience(&self) -> Duration {
        self.patience
    }

    pub fn lane(&self, disk: usize) -> Option<&Arc<Lane>> {
        self.lanes.get(disk)
    }

    /// The disks of a set that are there and not asked now, upward: those that are slow, for the
    /// longest time first, and those that were late, as many as a set can be read without.
    pub fn away(&self, set: &Set, late: &[usize]) -> Vec<usize> {
        let slow = |disk: usize| Some((self.lanes.get(disk)?.slow()?, disk));
        let mut slow: Vec<(Instant, usize)> = set.present().filter_map(slow).collect();
        slow.sort();
        let spare = SPARE.saturating_sub(set.lost().len());
        let mut away: Vec<usize> = slow.into_iter().map(|(_, disk)| disk).collect();
        let more = late.iter().filter(|disk| set.image(**disk).is_some() && !away.contains(disk));
        away.extend(more.copied().collect::<Vec<usize>>());
        away.truncate(spare);
        away.sort();
        away
    }
}
