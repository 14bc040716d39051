//! Rebuilds with tested survivors that are refused.

use super::calls::rebuild_tested;
use super::checks::same_tested;
use crate::harness::answer::Answer;
use crate::harness::model::{column_length, full_shape, stripe_length};
use crate::harness::stripes::clean_stripe;
use crate::harness::{arrays, numbers, Group, Lent, Random, Shape};

/// The refusals in the order in which they are tested: width, data disks, size, disk, both lengths, survivors.
const ORDER: [u8; 7] = [1, 13, 2, 3, 5, 5, 19];

pub fn run(group: &mut Group, random: &mut Random) {
    for (p, k) in arrays::some() {
        every_fault(group, random, p, k);
        wrong_lengths(group, random, Shape::new(p, k, 3));
    }
    refused_numbers(group, random);
}

/// Every mix of faults: the first in the order decides, and nothing changes.
fn every_fault(group: &mut Group, random: &mut Random, p: usize, k: usize) {
    for mix in 1..1 << ORDER.len() {
        let bad = |n: usize| mix >> n & 1 == 1;
        let or = |n: usize, bad_one: usize, good: usize| if bad(n) { bad_one } else { good };
        let good = Shape::new(p, k, 1);
        let shape = Shape::new(
            or(0, *random.pick(&[0, 9, p + 1, (1 << 32) + p]), p),
            or(1, *random.pick(&[0, 1, 32, (1 << 32) + k, usize::MAX]), k),
            or(2, *random.pick(&[0, 4_097, (1 << 32) + 1]), 1),
        );
        let lost = or(3, *random.pick(&[k + 2, 40, 1 << 32, usize::MAX]), random.below(k + 2));
        let mut bytes = clean_stripe(random, good).part().to_vec();
        if bad(6) {
            bytes[(lost % (k + 2) + 1) % (k + 2) * p] ^= 4;
        }
        bytes.resize(or(4, *random.pick(&[0, bytes.len() - 1, bytes.len() + 1]), bytes.len()), 7);
        let mut stripe = Lent::of(&bytes, random);
        let mut column = Lent::noise(or(5, *random.pick(&[0, p - 1, p + 1]), p), random);
        let before = column.part().to_vec();
        let first = (0..ORDER.len()).find(|n| bad(*n)).map(|n| Answer::of(ORDER[n]));
        let got = rebuild_tested(shape, lost, stripe.part(), column.part());
        let call = || format!("rebuild_tested({shape:?}, {lost}), faults {mix:#b}");
        group.same(call, first, Some(got));
        group.same_column(call, shape, &before, column.part());
        same_tested(group, shape, lost, &mut stripe, &mut column);
    }
}

/// One length wrong at a time, and lengths of the full array.
fn wrong_lengths(group: &mut Group, random: &mut Random, shape: Shape) {
    let (right, column) = (stripe_length(shape), column_length(shape));
    let full = stripe_length(full_shape(shape));
    let stripes = [0, 1, column, right - 1, right + 1, right - column, right + column, full];
    let columns = [0, 1, shape.width, column - 1, column + 1, 2 * column, right];
    let lengths = stripes.map(|stripe| (stripe, column)).into_iter();
    for (stripe, column) in lengths.chain(columns.map(|column| (right, column))) {
        let lost = random.below(shape.disks + 2);
        let (mut stripe, mut column) = (Lent::noise(stripe, random), Lent::noise(column, random));
        same_tested(group, shape, lost, &mut stripe, &mut column);
    }
}

/// Every mix of widths, data disks and sizes with some disks, with lengths that are right once they are cut.
fn refused_numbers(group: &mut Group, random: &mut Random) {
    let mut shapes = numbers::any_shapes();
    for width in numbers::any_widths() {
        shapes.extend(numbers::any_sizes().into_iter().map(|size| Shape::full(width, size)));
    }
    for shape in shapes {
        let [one, other] =
            numbers::cut_shapes(shape).map(|cut| (stripe_length(cut), column_length(cut)));
        for (stripe, column) in [one, other, (numbers::wrapped_length(shape), one.1)] {
            let (mut stripe, mut column) =
                (Lent::noise(stripe, random), Lent::noise(column, random));
            for lost in numbers::few_disks(shape.width, shape.disks) {
                same_tested(group, shape, lost, &mut stripe, &mut column);
            }
        }
    }
}
