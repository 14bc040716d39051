//! Stripes of large cells, as SHA-256 sums.

use super::lines::Lines;
use super::sha256;
use crate::groups::rebuild_cells::model::rebuild_cells;
use crate::groups::rebuild_one::model::follow;
use crate::harness::model::{disk_place, encode, our_steps, stripe_length};
use crate::harness::Shape;

/// Arrays and cell sizes.
const SHAPES: [(usize, usize, usize); 10] = [
    (3, 2, 4096),
    (3, 3, 4095),
    (5, 5, 4096),
    (7, 4, 511),
    (7, 7, 512),
    (13, 13, 513),
    (17, 12, 1024),
    (23, 23, 1025),
    (31, 2, 4096),
    (31, 31, 4096),
];

/// The bytes of a seed.
pub fn made(seed: u32, length: usize) -> Vec<u8> {
    let mut x = seed;
    let mut next = || {
        x = x.wrapping_mul(1_664_525).wrapping_add(1_013_904_223);
        (x >> 24) as u8
    };
    (0..length).map(|_| next()).collect()
}

/// The pairs of disks of a shape that are rebuilt.
fn pairs(k: usize) -> [(usize, usize); 3] {
    [(0, 1), (k / 2, k), (k, k + 1)]
}

pub fn large() -> String {
    let mut lines = Lines::new("large");
    for (seed, (p, k, s)) in (1..).zip(SHAPES) {
        let shape = Shape::new(p, k, s);
        lines.array(shape);
        lines.add(format!("seed {seed}"));
        let mut stripe = made(seed, stripe_length(shape));
        let dirty = stripe.clone();
        encode(shape, &mut stripe);
        let (data, parity) = stripe.split_at(shape.data_length());
        lines.add(format!("data {}", sha256::hex(data)));
        lines.add(format!("parity {}", sha256::hex(parity)));
        for disk in [0, k - 1, k, k + 1] {
            let column = follow(shape, disk, &dirty, &our_steps(p, k, disk));
            lines.add(format!("own {disk} {}", sha256::hex(&column)));
        }
        for (a, b) in pairs(k) {
            lines.add(format!("two {a} {b} {}", sha256::hex(&two_columns(shape, &dirty, a, b))));
        }
    }
    lines.finish()
}

/// Columns a and b of the clean stripe that has all other disks.
fn two_columns(shape: Shape, dirty: &[u8], a: usize, b: usize) -> Vec<u8> {
    let mut stripe = dirty.to_vec();
    let mut marks = vec![0; shape.width * (shape.disks + 2)];
    for disk in [a, b] {
        marks[disk * shape.width..][..shape.width].fill(1);
    }
    assert_eq!(rebuild_cells(shape, &marks, &mut stripe).refusal, 0, "two disks are determined");
    [&stripe[disk_place(shape, a)], &stripe[disk_place(shape, b)]].concat()
}
