//! The library's judge.

use crate::ffi;
pub use crate::ffi::Judged;

/// The judge's word on a plan.
pub fn judge_plan(width: usize, disks: usize, lost: usize, plan: &[u8]) -> Judged {
    unsafe { ffi::cuzhaveli_judge_plan(width, disks, lost, plan.as_ptr(), plan.len()) }
}
