//! A second implementation of the library's calls, and the comparisons with it.
//!
//! The groups stand in groups/, what they share in harness/; exports hands the second
//! implementation to C; ffi is the library as the crate `cuzhaveli` declares it.

pub mod exports;
#[path = "../../../rust/cuzhaveli/src/ffi.rs"]
pub mod ffi;
pub mod groups;
pub mod harness;
pub mod vectors;
