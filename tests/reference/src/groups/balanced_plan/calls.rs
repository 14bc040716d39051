//! The library's balanced plan.

use crate::ffi::{self, Plan};

/// The balanced plan for a disk.
pub fn balanced_plan(width: usize, disks: usize, lost: usize) -> Plan {
    unsafe { ffi::cuzhaveli_balanced_plan(width, disks, lost) }
}
