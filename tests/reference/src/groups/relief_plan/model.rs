//! The plan that relieves a disk in the second implementation.

use crate::ffi::Plan;
use crate::groups::planner::model::plan_by;
use crate::harness::model::{refuse, relief_steps};

/// The call that gives the relief plan.
pub fn relief_plan(width: usize, disks: usize, lost: usize, relieved: usize) -> Plan {
    let numbers = refuse(width, disks).disk(lost).when(3, |of| relieved >= of.disks);
    let numbers = numbers.when(4, |_| relieved == lost);
    plan_by((width, disks, lost), numbers, || relief_steps(width, disks, lost, relieved))
}
