//! The library's call that rebuilds one lost disk.

use crate::ffi;
use crate::harness::answer::Answer;
use crate::harness::Shape;

/// Rebuilds a disk of a stripe into a column.
pub fn rebuild_one(shape: Shape, lost: usize, stripe: &[u8], column: &mut [u8]) -> Answer {
    let (stripe, stripe_len) = (stripe.as_ptr(), stripe.len());
    let (column, column_len) = (column.as_mut_ptr(), column.len());
    unsafe { ffi::cuzhaveli_rebuild_one(shape, lost, stripe, stripe_len, column, column_len) }
}
