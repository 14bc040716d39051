//! A stripe's bytes: where they stand, their sums, the encoding.

use std::ops::Range;

use super::{set_cells, Cell};
use crate::harness::Shape;

/// The bytes of a stripe.
pub fn stripe_length(shape: Shape) -> usize {
    (shape.disks + 2) * shape.width * shape.cell_size
}

/// The bytes of a disk's cells.
pub fn column_length(shape: Shape) -> usize {
    shape.width * shape.cell_size
}

/// Where a cell stands in a stripe.
pub fn cell_place(shape: Shape, (i, c): Cell) -> Range<usize> {
    let start = (c * shape.width + i) * shape.cell_size;
    start..start + shape.cell_size
}

/// Where a disk's cells stand in a stripe.
pub fn disk_place(shape: Shape, disk: usize) -> Range<usize> {
    disk * column_length(shape)..(disk + 1) * column_length(shape)
}

/// XORs a cell's bytes into a sum.
pub fn add(sum: &mut [u8], cell: &[u8]) {
    assert_eq!(sum.len(), cell.len());
    for (byte, other) in sum.iter_mut().zip(cell) {
        *byte ^= other;
    }
}

/// The XOR of cells, byte by byte.
pub fn sum_of(shape: Shape, stripe: &[u8], cells: &[Cell]) -> Vec<u8> {
    let mut sum = vec![0; shape.cell_size];
    for &cell in cells {
        add(&mut sum, &stripe[cell_place(shape, cell)]);
    }
    sum
}

/// Gives the parity cell of each set the XOR of the set's other cells.
pub fn encode(shape: Shape, stripe: &mut [u8]) {
    for kind in 0..2 {
        for i in 0..shape.width {
            let parity = (i, shape.disks + kind);
            let mut others = set_cells(shape.width, shape.disks, kind, i);
            others.retain(|cell| *cell != parity);
            let sum = sum_of(shape, stripe, &others);
            stripe[cell_place(shape, parity)].copy_from_slice(&sum);
        }
    }
}
