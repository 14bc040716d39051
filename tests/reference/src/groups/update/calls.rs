//! The library's call that updates one cell.

use crate::ffi;
use crate::harness::answer::Answer;
use crate::harness::model::Cell;
use crate::harness::Shape;

/// Puts new bytes into a data cell of a stripe.
pub fn update_cell(shape: Shape, (row, disk): Cell, stripe: &mut [u8], new: &[u8]) -> Answer {
    let (stripe, stripe_len) = (stripe.as_mut_ptr(), stripe.len());
    let (cell, cell_len) = (new.as_ptr(), new.len());
    unsafe { ffi::cuzhaveli_update_cell(shape, row, disk, stripe, stripe_len, cell, cell_len) }
}
