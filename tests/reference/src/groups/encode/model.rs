//! Encoding and the check in the second implementation.

use super::calls::Checked;
use crate::harness::answer::{yes, Answer, ACCEPTED};
use crate::harness::model::{encode, refuse_shape, set_cells, sum_of};
use crate::harness::Shape;

/// The encoding call.
pub fn encode_stripe(shape: Shape, stripe: &mut [u8]) -> Answer {
    let answer = refuse_shape(shape).stripe(stripe.len()).answer();
    if answer == ACCEPTED {
        encode(shape, stripe);
    }
    answer
}

/// The checking call.
pub fn check_stripe(shape: Shape, stripe: &[u8]) -> Checked {
    let answer = refuse_shape(shape).stripe(stripe.len()).answer();
    let clean = yes(answer == ACCEPTED && clean(shape, stripe));
    Checked { answer, clean }
}

/// Every set of the stripe XORs to zero.
pub fn clean(shape: Shape, stripe: &[u8]) -> bool {
    let zero = |kind: usize, i: usize| {
        let sum = sum_of(shape, stripe, &set_cells(shape.width, shape.disks, kind, i));
        sum.iter().all(|byte| *byte == 0)
    };
    (0..shape.width).all(|i| zero(0, i) && zero(1, i))
}
