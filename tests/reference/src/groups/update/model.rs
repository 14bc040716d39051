//! The update of one cell in the second implementation: every set that holds the cell has its
//! parity cell changed as the cell is.

use crate::harness::answer::{Answer, ACCEPTED};
use crate::harness::model::{add, cell_place, refuse_shape, set_cells, Cell};
use crate::harness::Shape;

/// The updating call.
pub fn update_cell(shape: Shape, cell: Cell, stripe: &mut [u8], new: &[u8]) -> Answer {
    let (row, disk) = cell;
    let checks = refuse_shape(shape).when(3, |shape| disk >= shape.disks);
    let checks = checks.stripe(stripe.len()).length(new.len(), |shape| shape.cell_size);
    let answer = checks.when(15, |shape| row >= shape.width).answer();
    if answer == ACCEPTED {
        update(shape, cell, stripe, new);
    }
    answer
}

/// The parity cells of the sets that hold a data cell: its P cell, then its Q cells.
pub fn parity_cells(shape: Shape, cell: Cell) -> Vec<Cell> {
    let Shape { width: p, disks: k, .. } = shape;
    let sets = (0..2).flat_map(|kind| (0..p).map(move |i| (kind, i)));
    let holding = sets.filter(|&(kind, i)| set_cells(p, k, kind, i).contains(&cell));
    holding.map(|(kind, i)| (i, k + kind)).collect()
}

fn update(shape: Shape, cell: Cell, stripe: &mut [u8], new: &[u8]) {
    let place = cell_place(shape, cell);
    let mut change = stripe[place.clone()].to_vec();
    add(&mut change, new);
    for parity in parity_cells(shape, cell) {
        add(&mut stripe[cell_place(shape, parity)], &change);
    }
    stripe[place].copy_from_slice(new);
}
