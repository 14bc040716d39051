//! The library's call that rebuilds one lost disk by the balanced plan.

use crate::ffi;
use crate::harness::answer::Answer;
use crate::harness::Shape;

/// Rebuilds a disk of a stripe into a column.
pub fn rebuild_balanced(shape: Shape, lost: usize, stripe: &[u8], column: &mut [u8]) -> Answer {
    let (from, from_len) = (stripe.as_ptr(), stripe.len());
    let (to, to_len) = (column.as_mut_ptr(), column.len());
    unsafe { ffi::cuzhaveli_rebuild_balanced(shape, lost, from, from_len, to, to_len) }
}
