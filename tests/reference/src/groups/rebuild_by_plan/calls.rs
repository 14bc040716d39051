//! The library's call that rebuilds one lost disk by a plan that it is sent.

use crate::ffi;
use crate::harness::answer::Answer;
use crate::harness::Shape;

/// Rebuilds a disk of a stripe into a column by a plan.
pub fn rebuild_by_plan(
    shape: Shape,
    lost: usize,
    plan: &[u8],
    stripe: &[u8],
    column: &mut [u8],
) -> Answer {
    unsafe {
        ffi::cuzhaveli_rebuild_by_plan(
            shape,
            lost,
            plan.as_ptr(),
            plan.len(),
            stripe.as_ptr(),
            stripe.len(),
            column.as_mut_ptr(),
            column.len(),
        )
    }
}
