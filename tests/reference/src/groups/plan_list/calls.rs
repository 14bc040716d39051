//! The library's read list of any plan.

use crate::ffi;
use crate::harness::answer::Answer;

/// Width, data disks and lost disk.
pub type Numbers = (usize, usize, usize);

/// The read list of a plan for a disk.
pub fn plan_list((width, disks, lost): Numbers, plan: &[u8], list: &mut [u8]) -> Answer {
    let (plan, plan_len) = (plan.as_ptr(), plan.len());
    let (list, list_len) = (list.as_mut_ptr(), list.len());
    unsafe { ffi::cuzhaveli_plan_list(width, disks, lost, plan, plan_len, list, list_len) }
}
