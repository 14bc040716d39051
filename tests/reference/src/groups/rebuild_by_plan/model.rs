//! The rebuild of one lost disk by any accepted plan in the second implementation.

use crate::groups::judge::model::accepted_steps;
use crate::groups::rebuild_one::model::follow;
use crate::harness::answer::{Answer, ACCEPTED};
use crate::harness::model::refuse_shape;
use crate::harness::Shape;

/// The call that rebuilds one disk by a plan.
pub fn rebuild_by_plan(
    shape: Shape,
    lost: usize,
    plan: &[u8],
    stripe: &[u8],
    column: &mut [u8],
) -> Answer {
    let checks = refuse_shape(shape).disk(lost).length(plan.len(), |of| 3 * of.width);
    let answer = checks.stripe(stripe.len()).column(column.len()).answer();
    if answer != ACCEPTED {
        return answer;
    }
    match accepted_steps((shape.width, shape.disks, lost), plan) {
        Ok(steps) => column.copy_from_slice(&follow(shape, lost, stripe, &steps)),
        Err(refused) => return refused,
    }
    ACCEPTED
}
