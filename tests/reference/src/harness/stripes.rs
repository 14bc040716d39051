//! Stripes that several groups work with.

use super::model::{encode, stripe_length};
use super::{arrays, Lent, Random, Shape};

/// Cell sizes of accepted stripes.
const SIZES: [usize; 9] = [1, 2, 3, 7, 8, 64, 511, 512, 4_096];

/// Cell sizes where there are fewer data disks than rows.
const PART_SIZES: [usize; 3] = [1, 7, 64];

/// Arrays of fewer data disks than rows that have the largest cells too.
const LARGE_PARTS: [(usize, usize); 6] = [(3, 2), (7, 5), (13, 6), (13, 12), (23, 11), (31, 2)];

/// The stripe of document 01's example, disk after disk.
pub const EXAMPLE: [u8; 15] = [
    0x01, 0x08, 0x40, 0x02, 0x10, 0x80, 0x04, 0x20, 0x00, // data
    0x07, 0x38, 0xC0, 0x11, 0x9C, 0x66, // P and Q
];

/// The same data without disk 2; P and Q worked out by hand.
pub const PART_EXAMPLE: [u8; 12] = [
    0x01, 0x08, 0x40, 0x02, 0x10, 0x80, // data
    0x03, 0x18, 0xC0, 0x11, 0x98, 0x42, // P and Q
];

/// Accepted shapes: every cell size where there are as many data disks as rows, some elsewhere.
pub fn shapes() -> Vec<Shape> {
    let sizes_of = |p: usize, k: usize| {
        if k == p {
            return SIZES.to_vec();
        }
        let large = LARGE_PARTS.contains(&(p, k)).then_some(4_096);
        PART_SIZES.into_iter().chain(large).collect()
    };
    let shapes_of = |(p, k)| sizes_of(p, k).into_iter().map(move |s| Shape::new(p, k, s));
    arrays::some().into_iter().flat_map(shapes_of).collect()
}

/// A clean stripe with random data, made by the model.
pub fn clean_stripe(random: &mut Random, shape: Shape) -> Lent {
    let mut lent = Lent::noise(stripe_length(shape), random);
    encode(shape, lent.part());
    lent
}
