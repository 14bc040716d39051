//! The judge in the second implementation.

use std::collections::HashSet;

use super::calls::Judged;
use crate::harness::answer::{Answer, ACCEPTED};
use crate::harness::model::{cells_read, lost_rows, refuse, steps_of, Step};

/// Width, data disks and lost disk.
pub type Numbers = (usize, usize, usize);

/// The judge's call.
pub fn judge_plan(width: usize, disks: usize, lost: usize, plan: &[u8]) -> Judged {
    let numbers = refuse(width, disks).disk(lost);
    let answer = numbers.length(plan.len(), |of| 3 * of.width).answer();
    if answer != ACCEPTED {
        return Judged { answer, reads: 0 };
    }
    match accepted_steps((width, disks, lost), plan) {
        Ok(steps) => Judged { answer, reads: cells_read(width, disks, lost, &steps).len() as u32 },
        Err(answer) => Judged { answer, reads: 0 },
    }
}

/// The steps of a plan's bytes, or the answer that refuses one of them.
pub fn accepted_steps(numbers: Numbers, plan: &[u8]) -> Result<Vec<Step>, Answer> {
    let steps = steps_of(plan);
    match refuse_steps(numbers, &steps) {
        ACCEPTED => Ok(steps),
        refused => Err(refused),
    }
}

/// The first step that is refused, with its refusal.
fn refuse_steps(numbers: Numbers, steps: &[Step]) -> Answer {
    let mut rebuilt = HashSet::new();
    for (place, step) in steps.iter().enumerate() {
        let refusal = refuse_step(numbers, step, &rebuilt);
        if refusal != 0 {
            return Answer { refusal, place: place as u32 };
        }
        rebuilt.insert(step.row);
    }
    ACCEPTED
}

/// The refusal of one step, or 0, after the rows rebuilt so far.
fn refuse_step((p, k, lost): Numbers, step: &Step, rebuilt: &HashSet<usize>) -> u8 {
    if step.row >= p || step.kind > 1 || step.number >= p {
        return 6;
    }
    let rows = lost_rows(p, k, lost, step.kind, step.number);
    if !rows.contains(&step.row) {
        return 7;
    }
    if rebuilt.contains(&step.row) {
        return 8;
    }
    let stands = |row: &usize| *row == step.row || rebuilt.contains(row);
    if rows.iter().all(stands) {
        0
    } else {
        9
    }
}
