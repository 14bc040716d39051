//! How many stores can bear two more losses, one more, none, or are past saving: ask 12.

use std::path::Path;
use std::thread;
use std::time::Duration;

use cuzhaveli::{report_disk, ArrayState, Refusal, Totals};

use super::agree::glance;
use super::catalogue::Numbers;
use super::opened::Store;
use crate::fault::Fault;
use crate::layout::label::Label;

/// What the board knows of a store.
pub struct Standing {
    pub numbers: Numbers,
    pub lost: Vec<usize>,
}

/// How long disks that differ are looked at: a change that is under way takes less for each of them.
const PAUSE: Duration = Duration::from_millis(100);
const SAME: usize = 10;
/// How often a store is opened again at most.
const MOST_TRIES: usize = 600;

/// Which disks of a store are lost: those not there, those without the catalogue that counts, and
/// those that lack an image. None if nothing is known of it.
pub fn standing(folder: &Path) -> Result<Option<Standing>, Fault> {
    Ok(match beside_changes(folder) {
        Ok((store, lost)) => Some(Standing { numbers: *store.numbers(), lost }),
        Err(_) => glance(folder)?.map(|(numbers, lost)| Standing { numbers, lost }),
    })
}

/// Opens a store and says which of its disks are lost. Where some are it is asked again, until no
/// change has come between: one that another program makes takes images away.
pub fn beside_changes(folder: &Path) -> Result<(Store, Vec<usize>), Fault> {
    let mut store = settled(folder)?;
    let mut missing = lost(&store);
    for _ in 0..MOST_TRIES {
        if missing.is_empty() {
            break;
        }
        let again = settled(folder)?;
        let unchanged = again.catalogue.generation == store.catalogue.generation;
        missing = lost(&again);
        store = again;
        if unchanged {
            break;
        }
    }
    Ok((store, missing))
}

/// Opens a store. While its disks differ a change may be under way: it is opened again until they
/// agree, or differ as before for a second.
pub fn settled(folder: &Path) -> Result<Store, Fault> {
    let generations = |store: &Store| -> Vec<Option<u64>> {
        (0..store.disks.len()).map(|disk| store.generation(disk)).collect()
    };
    let mut store = Store::open(folder)?;
    let mut same = 0;
    for _ in 0..MOST_TRIES {
        if store.is_settled() || same == SAME {
            break;
        }
        thread::sleep(PAUSE);
        let again = Store::open(folder)?;
        same = if generations(&again) == generations(&store) { same + 1 } else { 0 };
        store = again;
    }
    Ok(store)
}

/// The disks on which something is missing.
pub fn lost(store: &Store) -> Vec<usize> {
    let (stale, lacking) = (store.stale(), lacking(store));
    let whole = |disk: &usize| !stale.contains(disk) && !lacking.contains(disk);
    (0..store.disks.len()).filter(|disk| !whole(disk)).collect()
}

/// The disks that are not there, or lack an image.
pub fn lacking(store: &Store) -> Vec<usize> {
    let numbers = store.numbers();
    let files = store.catalogue.files();
    let labels: Vec<Label> = files.filter_map(|(_, file)| file.label(numbers)).collect();
    let whole = |disk: usize| {
        store.disk(disk).is_some() && labels.iter().all(|label| store.has_image(disk, label))
    };
    (0..store.disks.len()).filter(|disk| !whole(*disk)).collect()
}

/// The totals of all stores: one report for each lost disk, to a list in which all are there.
pub fn totals(all: &[&Standing]) -> Result<Totals, Refusal> {
    let state = |one: &&Standing| ArrayState {
        width: one.numbers.shape.width(),
        disks: one.numbers.shape.disks(),
        lost: 0,
    };
    let mut list: Vec<ArrayState> = all.iter().map(state).collect();
    // With none lost: a loss and a return, so that there is something to report.
    report_disk(&mut list, 0, 0, false)?;
    let mut totals = report_disk(&mut list, 0, 0, true)?;
    for (which, one) in all.iter().enumerate() {
        for disk in &one.lost {
            totals = report_disk(&mut list, which, *disk, false)?;
        }
    }
    Ok(totals)
}

/// What a store with so many lost disks is called.
pub fn word(lost: usize) -> &'static str {
    match lost {
        0 => "optimal",
        1 => "degraded",
        2 => "critical",
        _ => "failed",
    }
}
