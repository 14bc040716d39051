//! The library's planner.

use crate::ffi;
pub use crate::ffi::{Plan, Steps};

/// Our plan for a disk.
pub fn plan_disk(width: usize, disks: usize, lost: usize) -> Plan {
    unsafe { ffi::cuzhaveli_plan_disk(width, disks, lost) }
}

impl Steps {
    /// The first p steps as the judge takes them.
    pub fn bytes(&self, p: usize) -> Vec<u8> {
        let step = |place: usize| [self.rows[place], self.kinds[place], self.numbers[place]];
        (0..p).flat_map(step).collect()
    }
}
