//! The library's call that reckons the space of a package.

use crate::ffi;
pub use crate::ffi::Space;
use crate::harness::Shape;

/// The space of a package of files, and whether it fits.
pub fn package_space(shape: Shape, lengths: &[u64], free: u64) -> Space {
    unsafe { ffi::cuzhaveli_package_space(shape, lengths.as_ptr(), lengths.len(), free) }
}
