//! The library's call that writes the missing cells of a stripe.

use crate::ffi;
use crate::harness::answer::Answer;
use crate::harness::Shape;

/// Writes the cells of a stripe whose marks are not 0.
pub fn rebuild_cells(shape: Shape, missing: &[u8], stripe: &mut [u8]) -> Answer {
    let (missing, missing_len) = (missing.as_ptr(), missing.len());
    let (stripe, stripe_len) = (stripe.as_mut_ptr(), stripe.len());
    unsafe { ffi::cuzhaveli_rebuild_cells(shape, missing, missing_len, stripe, stripe_len) }
}
