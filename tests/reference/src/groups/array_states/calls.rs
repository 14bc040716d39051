//! The library's call that reports a disk of an array of a list.

use crate::ffi;
pub use crate::ffi::{ArrayState, Board, Totals};

/// A report that a disk of array `which` was lost, or is back.
pub fn report_disk(list: &mut [ArrayState], which: usize, disk: usize, back: bool) -> Board {
    let (list, list_len) = (list.as_mut_ptr(), list.len());
    unsafe { ffi::cuzhaveli_report_disk(list, list_len, which, disk, back) }
}

impl ArrayState {
    /// An array with these disks lost.
    pub fn of(width: usize, disks: usize, lost: &[usize]) -> ArrayState {
        ArrayState { width, disks, lost: lost.iter().map(|disk| 1 << disk).sum() }
    }
}

impl Totals {
    /// The totals: two more losses can be borne, one more, none, past saving.
    pub fn of([optimal, degraded, critical, failed]: [u32; 4]) -> Totals {
        Totals { optimal, degraded, critical, failed }
    }
}
