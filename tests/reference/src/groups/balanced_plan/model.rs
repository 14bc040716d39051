//! The balanced plan in the second implementation.

use crate::ffi::Plan;
use crate::groups::planner::model::plan_by;
use crate::harness::model::{balanced_steps, refuse};

/// The call that gives the balanced plan.
pub fn balanced_plan(width: usize, disks: usize, lost: usize) -> Plan {
    let numbers = refuse(width, disks).disk(lost);
    plan_by((width, disks, lost), numbers, || balanced_steps(width, disks, lost))
}
