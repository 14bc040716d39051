//! The library's calls that encode and check a stripe.

use crate::ffi;
pub use crate::ffi::Checked;
use crate::harness::answer::Answer;
use crate::harness::Shape;

/// Writes P and Q of a stripe.
pub fn encode_stripe(shape: Shape, stripe: &mut [u8]) -> Answer {
    unsafe { ffi::cuzhaveli_encode_stripe(shape, stripe.as_mut_ptr(), stripe.len()) }
}

/// Says whether a stripe is clean.
pub fn check_stripe(shape: Shape, stripe: &[u8]) -> Checked {
    unsafe { ffi::cuzhaveli_check_stripe(shape, stripe.as_ptr(), stripe.len()) }
}
