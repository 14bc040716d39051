//! The space of a package in the second implementation.

use super::calls::Space;
use crate::harness::answer::{yes, ACCEPTED};
use crate::harness::model::{column_length, refuse_shape};
use crate::harness::Shape;

/// The largest package, in bytes, and the most files.
pub const MOST: u64 = 1 << 48;
pub const MOST_FILES: usize = 4_096;

/// The space call: every file has stripes of its own.
pub fn package_space(shape: Shape, lengths: &[u64], free: u64) -> Space {
    let lengths: Vec<u128> = lengths.iter().map(|length| *length as u128).collect();
    let answer = refuse_shape(shape)
        .when(14, |_| lengths.len() > MOST_FILES)
        .when(11, |_| lengths.iter().sum::<u128>() > MOST as u128)
        .answer();
    if answer != ACCEPTED {
        return Space { answer, ..Space::default() };
    }
    let stripe = shape.data_length() as u128;
    let column = column_length(shape) as u128;
    let stripes: u128 = lengths.iter().map(|length| length.div_ceil(stripe)).sum();
    let need = stripes * column;
    let fits = yes(need <= free as u128);
    Space { answer, stripes: stripes as u64, bytes: need as u64, fits }
}
