//! The scrub in the second implementation: from the XOR of every set, what a disk's cells would have to change by.

use super::calls::Scrubbed;
use crate::harness::answer::{Answer, ACCEPTED};
use crate::harness::model::{add, lost_rows, refuse_shape, set_cells, sum_of};
use crate::harness::Shape;

/// An accepted answer.
pub fn found(verdict: u8, disk: usize) -> Scrubbed {
    Scrubbed { answer: ACCEPTED, verdict, disk }
}

/// A refused one.
pub fn refused(answer: Answer) -> Scrubbed {
    Scrubbed { answer, verdict: 0, disk: 0 }
}

/// The scrubbing call.
pub fn scrub_stripe(shape: Shape, stripe: &[u8]) -> Scrubbed {
    let answer = refuse_shape(shape).stripe(stripe.len()).answer();
    if answer != ACCEPTED {
        return refused(answer);
    }
    let sums = [0, 1].map(|kind| sums(shape, stripe, kind));
    if sums.iter().flatten().flatten().all(|byte| *byte == 0) {
        return found(0, 0);
    }
    let named: Vec<usize> = shape.all_disks().filter(|d| mends(shape, *d, &sums)).collect();
    assert!(named.len() < 2, "two disks explain one stripe: {named:?}");
    named.first().map_or(found(2, 0), |disk| found(1, *disk))
}

/// The XOR of each row set, or of each diagonal set.
fn sums(shape: Shape, stripe: &[u8], kind: usize) -> Vec<Vec<u8>> {
    let cells = |i| set_cells(shape.width, shape.disks, kind, i);
    (0..shape.width).map(|i| sum_of(shape, stripe, &cells(i))).collect()
}

/// Some change of this disk's cells makes every set zero. The row sets say by what each row has to change, for Q the
/// diagonal sets; then every set has to be zero with these changes.
fn mends(shape: Shape, disk: usize, sums: &[Vec<Vec<u8>>; 2]) -> bool {
    let Shape { width: p, disks: k, cell_size: s } = shape;
    let change = &sums[usize::from(disk == k + 1)];
    let set_mended = |kind: usize, i: usize| {
        let mut sum = vec![0; s];
        for row in lost_rows(p, k, disk, kind, i) {
            add(&mut sum, &change[row]);
        }
        sum == sums[kind][i]
    };
    (0..p).all(|i| set_mended(0, i) && set_mended(1, i))
}
