//! The library's fewest plan.

use crate::ffi::{self, Plan};

/// The fewest plan for a disk.
pub fn fewest_plan(width: usize, disks: usize, lost: usize) -> Plan {
    unsafe { ffi::cuzhaveli_fewest_plan(width, disks, lost) }
}
