//! The rebuild with tested survivors in the second implementation: rebuilt into a copy, which is then checked.

use crate::groups::encode::model::clean;
use crate::groups::rebuild_one;
use crate::harness::answer::{Answer, ACCEPTED};
use crate::harness::model::disk_place;
use crate::harness::Shape;

/// The call that rebuilds one disk where some clean stripe has all surviving cells.
pub fn rebuild_tested(shape: Shape, lost: usize, stripe: &[u8], column: &mut [u8]) -> Answer {
    let mut rebuilt = column.to_vec();
    let answer = rebuild_one::model::rebuild_one(shape, lost, stripe, &mut rebuilt);
    if answer != ACCEPTED {
        return answer;
    }
    let mut whole = stripe.to_vec();
    whole[disk_place(shape, lost)].copy_from_slice(&rebuilt);
    if !clean(shape, &whole) {
        return Answer::of(19);
    }
    column.copy_from_slice(&rebuilt);
    ACCEPTED
}
