//! An array beside the full one, which has as many data disks as rows: the absent disks are zero there.

use crate::harness::Shape;

/// A disk's number in the full array.
pub fn full_disk(p: usize, k: usize, disk: usize) -> usize {
    if disk < k {
        disk
    } else {
        disk - k + p
    }
}

/// The same cells in the full array.
pub fn full_shape(shape: Shape) -> Shape {
    Shape::full(shape.width, shape.cell_size)
}

/// A stripe with zeros for the absent disks, between the data disks and P.
pub fn widened(shape: Shape, stripe: &[u8]) -> Vec<u8> {
    let (data, parity) = stripe.split_at(shape.data_length());
    let absent = full_shape(shape).data_length() - shape.data_length();
    [data, &vec![0; absent], parity].concat()
}
