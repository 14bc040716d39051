//! The planner in the second implementation.

use super::calls::Plan;
use crate::harness::answer::ACCEPTED;
use crate::harness::model::{cells_read, our_steps, refuse, Refusal, Step};

/// The planner's call.
pub fn plan_disk(width: usize, disks: usize, lost: usize) -> Plan {
    let numbers = refuse(width, disks).disk(lost);
    plan_by((width, disks, lost), numbers, || our_steps(width, disks, lost))
}

/// The record of a plan of these steps, unless the numbers are refused.
pub fn plan_by(
    (width, disks, lost): (usize, usize, usize),
    numbers: Refusal,
    steps: impl FnOnce() -> Vec<Step>,
) -> Plan {
    let answer = numbers.answer();
    if answer != ACCEPTED {
        return Plan { answer, ..Plan::default() };
    }
    let mut plan = Plan::default();
    let steps = steps();
    for (place, step) in steps.iter().enumerate() {
        plan.steps.rows[place] = step.row as u8;
        plan.steps.kinds[place] = step.kind as u8;
        plan.steps.numbers[place] = step.number as u8;
        plan.routes |= (step.kind as u32) << step.row;
    }
    plan.reads = cells_read(width, disks, lost, &steps).len() as u32;
    plan
}
