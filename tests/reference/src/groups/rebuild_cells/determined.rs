//! Whether the other cells determine the missing ones: sets with one missing cell give it, again and again; of the cells
//! that are then left, no set of them may be in every set an even number of times.

use std::collections::BTreeSet;

use crate::harness::model::{set_cells, Cell};

/// The missing cells of each set.
fn missing_in_sets(p: usize, k: usize, missing: &[Cell]) -> Vec<BTreeSet<Cell>> {
    let missing: BTreeSet<Cell> = missing.iter().copied().collect();
    let held = |kind, number| {
        let cells = set_cells(p, k, kind, number).into_iter();
        cells.filter(|cell| missing.contains(cell)).collect()
    };
    (0..2).flat_map(|kind| (0..p).map(move |number| held(kind, number))).collect()
}

/// Takes out every cell that is the only missing one of a set, until there is none.
fn peel(sets: &mut [BTreeSet<Cell>]) {
    while let Some(cell) = sets.iter().find(|set| set.len() == 1).and_then(BTreeSet::first).copied()
    {
        for set in sets.iter_mut() {
            set.remove(&cell);
        }
    }
}

/// Solves each cell in turn by the last set that has it, which is then taken out of the others that do; false if a cell
/// is in no set that is left.
fn each_solved(mut sets: Vec<BTreeSet<Cell>>, cells: BTreeSet<Cell>) -> bool {
    for cell in cells.into_iter().rev() {
        let Some(place) = sets.iter().rposition(|set| set.contains(&cell)) else {
            return false;
        };
        let solver = sets.swap_remove(place);
        for set in sets.iter_mut().filter(|set| set.contains(&cell)) {
            *set = set.symmetric_difference(&solver).copied().collect();
        }
    }
    true
}

/// No two different clean stripes agree on all other cells.
pub fn determined(p: usize, k: usize, missing: &[Cell]) -> bool {
    if missing.len() > 2 * p {
        return false; // more than there are sets
    }
    let mut sets = missing_in_sets(p, k, missing);
    peel(&mut sets);
    let left = sets.iter().flatten().copied().collect();
    each_solved(sets, left)
}
