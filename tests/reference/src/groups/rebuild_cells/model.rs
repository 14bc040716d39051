//! The mend of missing cells in the second implementation.
//!
//! Whether the cells are determined is decided in `determined`. Which sets give a cell plays a part only on a stripe that
//! is not clean; the paper fixes them: rows of yes and no, one for each set, are made to have one missing cell each.

use super::determined::determined;
use crate::harness::answer::{Answer, ACCEPTED};
use crate::harness::model::{cell_place, refuse_shape, set_cells, sum_of, Cell};
use crate::harness::Shape;

/// A sum of sets: which missing cells it has, and of which sets it is.
#[derive(Clone)]
struct Row {
    cells: Vec<bool>,
    sets: Vec<bool>,
}

impl Row {
    fn add(&mut self, other: &Row) {
        let flip = |(mine, theirs): (&mut bool, &bool)| *mine ^= theirs;
        self.cells.iter_mut().zip(&other.cells).for_each(flip);
        self.sets.iter_mut().zip(&other.sets).for_each(flip);
    }
}

/// The call that writes missing cells.
pub fn rebuild_cells(shape: Shape, marks: &[u8], stripe: &mut [u8]) -> Answer {
    let checks = refuse_shape(shape).length(marks.len(), |of| of.width * (of.disks + 2));
    let checks = checks.stripe(stripe.len());
    let of = |shape: Shape| determined(shape.width, shape.disks, &missing_cells(shape, marks));
    let answer = checks.when(23, |shape| !of(shape)).answer();
    if answer == ACCEPTED {
        mend(shape, &missing_cells(shape, marks), stripe);
    }
    answer
}

/// The marked cells, by place.
pub fn missing_cells(shape: Shape, marks: &[u8]) -> Vec<Cell> {
    let marked = (0..marks.len()).filter(|place| marks[*place] != 0);
    marked.map(|place| (place % shape.width, place / shape.width)).collect()
}

/// One after another each cell becomes the XOR of the other cells that are in an odd number of its sets.
pub fn mend(shape: Shape, missing: &[Cell], stripe: &mut [u8]) {
    let rows = solving_rows(shape.width, shape.disks, missing);
    for (cell, row) in missing.iter().zip(rows) {
        let mut odd = odd_cells(shape, &row.sets);
        odd.retain(|other| other != cell);
        let sum = sum_of(shape, stripe, &odd);
        stripe[cell_place(shape, *cell)].copy_from_slice(&sum);
    }
}

/// The rows, one for each set in their order: for cell after cell, the row of its number changes places with the first
/// one from there on that has the cell, and is then added to every other row that has it.
fn solving_rows(p: usize, k: usize, missing: &[Cell]) -> Vec<Row> {
    let row = |set: usize| {
        let held = set_cells(p, k, set / p, set % p);
        let cells = missing.iter().map(|cell| held.contains(cell)).collect();
        Row { cells, sets: (0..2 * p).map(|other| other == set).collect() }
    };
    let mut rows: Vec<Row> = (0..2 * p).map(row).collect();
    for b in 0..missing.len() {
        let first = (b..2 * p).find(|place| rows[*place].cells[b]);
        let first = first.expect("determined cells are in some set that is left");
        rows.swap(b, first);
        let own = rows[b].clone();
        for place in (0..2 * p).filter(|place| *place != b) {
            if rows[place].cells[b] {
                rows[place].add(&own);
            }
        }
    }
    rows
}

/// The cells that an odd number of these sets hold.
fn odd_cells(shape: Shape, sets: &[bool]) -> Vec<Cell> {
    let Shape { width: p, disks: k, .. } = shape;
    let mut odd = vec![false; p * (k + 2)];
    for set in (0..2 * p).filter(|set| sets[*set]) {
        for (row, disk) in set_cells(p, k, set / p, set % p) {
            odd[disk * p + row] ^= true;
        }
    }
    let places = (0..odd.len()).filter(|place| odd[*place]);
    places.map(|place| (place % p, place / p)).collect()
}
