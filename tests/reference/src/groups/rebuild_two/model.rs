//! The rebuild of two lost disks in the second implementation: its refusals.
//!
//! It needs no way to the bytes: any contents of the other disks belong to exactly one clean
//! stripe, so a clean result with the other disks as they were is the right one.

use crate::harness::answer::Answer;
use crate::harness::model::refuse_shape;
use crate::harness::Shape;

/// The answer of the call on a stripe of that length.
pub fn rebuild_two(shape: Shape, first: usize, second: usize, length: usize) -> Answer {
    refuse_shape(shape).two_disks(first, second).stripe(length).answer()
}
