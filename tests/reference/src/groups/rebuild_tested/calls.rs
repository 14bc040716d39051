//! The library's call that tests the survivors and rebuilds one lost disk.

use crate::ffi;
use crate::harness::answer::Answer;
use crate::harness::Shape;

/// Rebuilds a disk of a stripe into a column, if the other disks are those of a clean stripe.
pub fn rebuild_tested(shape: Shape, lost: usize, stripe: &[u8], column: &mut [u8]) -> Answer {
    let (stripe, stripe_len) = (stripe.as_ptr(), stripe.len());
    let (column, column_len) = (column.as_mut_ptr(), column.len());
    unsafe { ffi::cuzhaveli_rebuild_tested(shape, lost, stripe, stripe_len, column, column_len) }
}
