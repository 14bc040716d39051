//! Rebuild runs in the second implementation.

use super::calls::{DisksRun, FullRun, Opened, Progress, Run};
use crate::groups::{planner, rebuild_one};
use crate::harness::answer::{yes, Answer, ACCEPTED};
use crate::harness::model::refuse_shape;
use crate::harness::Shape;

/// The refusals of a record's numbers.
fn refuse_numbers(shape: Shape, lost: usize) -> Answer {
    refuse_shape(shape).disk(lost).answer()
}

/// The call that opens a run; a refusal gives a record of zeros.
pub fn open_run(shape: Shape, lost: usize, stripes: u32) -> Opened {
    let answer = refuse_numbers(shape, lost);
    let run = match answer {
        ACCEPTED => Run { shape, lost, stripes, next: 0, skipped: 0 },
        _ => Run::default(),
    };
    Opened { answer, run }
}

/// A step: the rebuild's own refusals come before 10, and only an accepted step writes.
pub fn step_run(run: &mut Run, which: u64, stripe: &[u8], column: &mut [u8]) -> Answer {
    let mut rebuilt = column.to_vec();
    let answer = rebuild_one::model::rebuild_one(run.shape, run.lost, stripe, &mut rebuilt);
    if answer != ACCEPTED {
        return answer;
    }
    if run.skipped > run.next || !is_next(run, which) {
        return Answer::of(10);
    }
    column.copy_from_slice(&rebuilt);
    run.next += 1;
    answer
}

/// The run is not over, and this stripe is its next.
fn is_next(run: &Run, which: u64) -> bool {
    run.next < run.stripes && which == u64::from(run.next)
}

/// The refusals of a record, as reading it gives them.
fn refuse_record(run: &Run) -> Answer {
    let numbers = refuse_shape(run.shape).disk(run.lost);
    numbers.when(10, |_| run.skipped > run.next).answer()
}

/// A skip: what reading the record refuses by, then 10 as for a step.
pub fn skip_stripe(run: &mut Run, which: u64) -> Answer {
    let answer = refuse_record(run);
    if answer != ACCEPTED {
        return answer;
    }
    if !is_next(run, which) {
        return Answer::of(10);
    }
    run.next += 1;
    run.skipped += 1;
    answer
}

/// The call that reads a record.
pub fn run_progress(run: &Run) -> Progress {
    let answer = refuse_record(run);
    if answer != ACCEPTED {
        return Progress { answer, ..Progress::default() };
    }
    let reads = planner::model::plan_disk(run.shape.width, run.shape.disks, run.lost).reads;
    let cells = u64::from(run.next - run.skipped) * u64::from(reads);
    Progress { answer, over: yes(run.next == run.stripes), cells }
}

/// The call that takes over an old record: as many data disks as rows, the rest as it was.
pub fn resume_full_run(old: FullRun) -> Run {
    let shape = Shape { width: old.width, disks: old.width, cell_size: old.size };
    Run { shape, lost: old.disk, stripes: old.stripes, next: old.next, skipped: 0 }
}

/// The call that takes over a record without skipped stripes: none were.
pub fn resume_disks_run(old: DisksRun) -> Run {
    let DisksRun { shape, lost, stripes, next } = old;
    Run { shape, lost, stripes, next, skipped: 0 }
}
