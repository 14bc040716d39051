//! The library's call that scrubs a stripe.

use crate::ffi;
pub use crate::ffi::Scrubbed;
use crate::harness::Shape;

/// Says whether a stripe is clean, or which disk alone is not as the others say, or that more are.
pub fn scrub_stripe(shape: Shape, stripe: &[u8]) -> Scrubbed {
    unsafe { ffi::cuzhaveli_scrub_stripe(shape, stripe.as_ptr(), stripe.len()) }
}
