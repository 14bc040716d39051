//! The library's call that rebuilds two lost disks.

use crate::ffi;
use crate::harness::answer::Answer;
use crate::harness::Shape;

/// Rebuilds two disks of a stripe in place.
pub fn rebuild_two(shape: Shape, first: usize, second: usize, stripe: &mut [u8]) -> Answer {
    let (stripe, stripe_len) = (stripe.as_mut_ptr(), stripe.len());
    unsafe { ffi::cuzhaveli_rebuild_two(shape, first, second, stripe, stripe_len) }
}
