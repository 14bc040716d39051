//! The rebuild of one lost disk by the balanced plan in the second implementation.

use crate::groups::rebuild_one::model::rebuild_by;
use crate::harness::answer::Answer;
use crate::harness::model::balanced_steps;
use crate::harness::Shape;

/// The call that rebuilds one disk by the balanced plan.
pub fn rebuild_balanced(shape: Shape, lost: usize, stripe: &[u8], column: &mut [u8]) -> Answer {
    rebuild_by(shape, lost, balanced_steps, stripe, column)
}
