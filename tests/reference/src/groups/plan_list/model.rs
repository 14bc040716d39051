//! The read list of any plan in the second implementation.

use super::calls::Numbers;
use crate::groups::judge::model::accepted_steps;
use crate::groups::read_list::model::mark;
use crate::harness::answer::{Answer, ACCEPTED};
use crate::harness::model::refuse;

/// The call that lists what a plan reads.
pub fn plan_list(numbers: Numbers, plan: &[u8], list: &mut [u8]) -> Answer {
    let (width, disks, lost) = numbers;
    let checks = refuse(width, disks).disk(lost).length(plan.len(), |of| 3 * of.width);
    let answer = checks.length(list.len(), |of| of.width * (of.disks + 2)).answer();
    if answer != ACCEPTED {
        return answer;
    }
    match accepted_steps(numbers, plan) {
        Ok(steps) => mark(numbers, &steps, list),
        Err(refused) => return refused,
    }
    ACCEPTED
}
