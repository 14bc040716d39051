//! The library's calls on rebuild runs.

use crate::ffi;
pub use crate::ffi::{DisksRun, FullRun, Progress, Run, RunAnswer as Opened};
use crate::harness::answer::Answer;
use crate::harness::Shape;

/// Opens a run.
pub fn open_run(shape: Shape, lost: usize, stripes: u32) -> Opened {
    unsafe { ffi::cuzhaveli_open_run(shape, lost, stripes) }
}

/// A step over a lent record.
pub fn step_run(run: &mut Run, which: u64, stripe: &[u8], column: &mut [u8]) -> Answer {
    let (stripe, stripe_len) = (stripe.as_ptr(), stripe.len());
    let (column, column_len) = (column.as_mut_ptr(), column.len());
    unsafe { ffi::cuzhaveli_step_run(run, which, stripe, stripe_len, column, column_len) }
}

/// How far a run is.
pub fn run_progress(run: &Run) -> Progress {
    unsafe { ffi::cuzhaveli_run_progress(run) }
}

/// The record that an old one becomes.
pub fn resume_full_run(old: FullRun) -> Run {
    unsafe { ffi::cuzhaveli_resume_full_run(old) }
}

/// A skip over a lent record.
pub fn skip_stripe(run: &mut Run, which: u64) -> Answer {
    unsafe { ffi::cuzhaveli_skip_stripe(run, which) }
}

/// The record that one without skipped stripes becomes.
pub fn resume_disks_run(old: DisksRun) -> Run {
    unsafe { ffi::cuzhaveli_resume_disks_run(old) }
}
