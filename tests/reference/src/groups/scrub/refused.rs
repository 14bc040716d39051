//! Scrubs that are refused.

use super::calls::scrub_stripe;
use super::checks::same_scrub;
use super::model::refused;
use crate::harness::answer::Answer;
use crate::harness::model::{column_length, full_shape, stripe_length};
use crate::harness::{arrays, numbers, Group, Lent, Random, Shape};

/// The refusals in the order in which they are tested: width, data disks, size, length.
const ORDER: [u8; 4] = [1, 13, 2, 5];

pub fn run(group: &mut Group, random: &mut Random) {
    for (p, k) in arrays::some() {
        every_fault(group, random, p, k);
        wrong_lengths(group, random, Shape::new(p, k, 3));
    }
    refused_numbers(group, random);
}

/// Every mix of faults: the first in the order decides, and nothing changes.
fn every_fault(group: &mut Group, random: &mut Random, p: usize, k: usize) {
    for mix in 1..1 << ORDER.len() {
        let bad = |n: usize| mix >> n & 1 == 1;
        let or = |n: usize, bad_one: usize, good: usize| if bad(n) { bad_one } else { good };
        let shape = Shape::new(
            or(0, *random.pick(&[0, 9, p + 1, (1 << 32) + p]), p),
            or(1, *random.pick(&[0, 1, 32, (1 << 32) + k, usize::MAX]), k),
            or(2, *random.pick(&[0, 4_097, (1 << 32) + 1]), 1),
        );
        let right = stripe_length(Shape::new(p, k, 1));
        let length = or(3, *random.pick(&[0, right - 1, right + 1]), right);
        let mut stripe = Lent::noise(length, random);
        let first = (0..ORDER.len()).find(|n| bad(*n)).map(|n| Answer::of(ORDER[n]));
        let got = scrub_stripe(shape, stripe.part());
        let call = || format!("scrub_stripe({shape:?}), faults {mix:#b}");
        group.same(call, first.map(refused), Some(got));
        same_scrub(group, shape, &mut stripe);
    }
}

fn wrong_lengths(group: &mut Group, random: &mut Random, shape: Shape) {
    let (right, column) = (stripe_length(shape), column_length(shape));
    let mut lengths = vec![0, 1, column, right - 1, right + 1, right - column, right + column];
    lengths.extend([2 * right, stripe_length(full_shape(shape))]);
    for length in lengths {
        same_scrub(group, shape, &mut Lent::noise(length, random));
    }
}

/// Every mix of widths, data disks and sizes, with lengths that are right once they are cut.
fn refused_numbers(group: &mut Group, random: &mut Random) {
    let mut shapes = numbers::any_shapes();
    for width in numbers::any_widths() {
        shapes.extend(numbers::any_sizes().into_iter().map(|size| Shape::full(width, size)));
    }
    for shape in shapes {
        let [one, other] = numbers::cut_shapes(shape).map(stripe_length);
        for length in [0, one, other, numbers::wrapped_length(shape)] {
            same_scrub(group, shape, &mut Lent::noise(length, random));
        }
    }
}
