//! The library's read list.

use crate::ffi;
use crate::harness::answer::Answer;

/// The read list of our plan for a disk.
pub fn read_list(width: usize, disks: usize, lost: usize, list: &mut [u8]) -> Answer {
    unsafe { ffi::cuzhaveli_read_list(width, disks, lost, list.as_mut_ptr(), list.len()) }
}
