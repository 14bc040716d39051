//! The library's plan that relieves a disk.

use crate::ffi::{self, Plan};

/// The plan for a disk that relieves another one.
pub fn relief_plan(width: usize, disks: usize, lost: usize, relieved: usize) -> Plan {
    unsafe { ffi::cuzhaveli_relief_plan(width, disks, lost, relieved) }
}
