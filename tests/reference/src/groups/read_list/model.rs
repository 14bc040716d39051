//! The read list in the second implementation.

use crate::harness::answer::{Answer, ACCEPTED};
use crate::harness::model::{cells_read, our_steps, refuse, Step};

/// The read list's call.
pub fn read_list(width: usize, disks: usize, lost: usize, list: &mut [u8]) -> Answer {
    let numbers = refuse(width, disks).disk(lost);
    let answer = numbers.length(list.len(), |of| of.width * (of.disks + 2)).answer();
    if answer == ACCEPTED {
        mark((width, disks, lost), &our_steps(width, disks, lost), list);
    }
    answer
}

/// Marks the cells that steps read.
pub fn mark((p, k, lost): (usize, usize, usize), steps: &[Step], list: &mut [u8]) {
    list.fill(0);
    for (i, c) in cells_read(p, k, lost, steps) {
        list[c * p + i] = 1;
    }
}
