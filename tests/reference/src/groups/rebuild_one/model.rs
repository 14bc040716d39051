//! The rebuild of one lost disk in the second implementation.

use crate::harness::answer::{Answer, ACCEPTED};
use crate::harness::model::{add, cell_place, our_steps, refuse_shape, set_cells, Step};
use crate::harness::Shape;

/// The lost cells rebuilt so far, by row.
type Rebuilt = Vec<Option<Vec<u8>>>;

/// The call that rebuilds one disk.
pub fn rebuild_one(shape: Shape, lost: usize, stripe: &[u8], column: &mut [u8]) -> Answer {
    rebuild_by(shape, lost, our_steps, stripe, column)
}

/// Such a call that follows the steps of this plan for width, data disks and lost disk.
pub fn rebuild_by(
    shape: Shape,
    lost: usize,
    plan: fn(usize, usize, usize) -> Vec<Step>,
    stripe: &[u8],
    column: &mut [u8],
) -> Answer {
    let numbers = refuse_shape(shape).disk(lost);
    let answer = numbers.stripe(stripe.len()).column(column.len()).answer();
    if answer == ACCEPTED {
        let steps = plan(shape.width, shape.disks, lost);
        column.copy_from_slice(&follow(shape, lost, stripe, &steps));
    }
    answer
}

/// The lost disk's cells, rows upward, as the steps of a plan give them.
pub fn follow(shape: Shape, lost: usize, stripe: &[u8], steps: &[Step]) -> Vec<u8> {
    let mut rebuilt: Rebuilt = vec![None; shape.width];
    for step in steps {
        let sum = step_sum(shape, lost, stripe, step, &rebuilt);
        rebuilt[step.row] = Some(sum);
    }
    rebuilt.into_iter().flat_map(|cell| cell.expect("a step for every row")).collect()
}

/// The XOR of the step's set without the cell that the step rebuilds.
fn step_sum(shape: Shape, lost: usize, stripe: &[u8], step: &Step, rebuilt: &Rebuilt) -> Vec<u8> {
    let mut sum = vec![0; shape.cell_size];
    for (i, c) in set_cells(shape.width, shape.disks, step.kind, step.number) {
        if c != lost {
            add(&mut sum, &stripe[cell_place(shape, (i, c))]);
        } else if i != step.row {
            add(&mut sum, rebuilt[i].as_ref().expect("rebuilt by an earlier step"));
        }
    }
    sum
}
