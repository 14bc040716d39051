//! The fewest plan in the second implementation.

use crate::ffi::Plan;
use crate::groups::planner::model::plan_by;
use crate::harness::model::{fewest_steps, refuse};

/// The call that gives the fewest plan.
pub fn fewest_plan(width: usize, disks: usize, lost: usize) -> Plan {
    let numbers = refuse(width, disks).disk(lost);
    plan_by((width, disks, lost), numbers, || fewest_steps(width, disks, lost))
}
