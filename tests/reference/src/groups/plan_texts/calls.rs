//! The library's calls on plans as text.

use crate::ffi;
pub use crate::ffi::{Judged, Written};

/// Width, data disks and lost disk.
pub type Numbers = (usize, usize, usize);

/// The judge's word on a text.
pub fn judge_text((width, disks, lost): Numbers, text: &[u8]) -> Judged {
    unsafe { ffi::cuzhaveli_judge_text(width, disks, lost, text.as_ptr(), text.len()) }
}

/// A plan of three bytes a step in its plain form.
pub fn write_plan((width, disks, lost): Numbers, plan: &[u8], out: &mut [u8]) -> Written {
    let (plan, plan_len) = (plan.as_ptr(), plan.len());
    let (out, out_len) = (out.as_mut_ptr(), out.len());
    unsafe { ffi::cuzhaveli_write_plan(width, disks, lost, plan, plan_len, out, out_len) }
}

/// The plain form of a text.
pub fn plain_text((width, disks, lost): Numbers, text: &[u8], out: &mut [u8]) -> Written {
    let (text, text_len) = (text.as_ptr(), text.len());
    let (out, out_len) = (out.as_mut_ptr(), out.len());
    unsafe { ffi::cuzhaveli_plain_text(width, disks, lost, text, text_len, out, out_len) }
}
