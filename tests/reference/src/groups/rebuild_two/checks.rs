//! The rebuild of two lost disks: every pair of every array, and calls of which most are refused.

use super::calls::rebuild_two;
use super::model;
use crate::groups::encode::model::check_stripe;
use crate::harness::answer::{ACCEPTED, YES};
use crate::harness::model::{disk_place, full_disk, full_shape, stripe_length, widened, WIDTHS};
use crate::harness::stripes::clean_stripe;
use crate::harness::{arrays, numbers, small_stack, Group, Lent, Random, Setting, Shape};

/// Cell sizes for every pair of a full array, and for some pairs of some arrays.
const ALL_PAIRS: [usize; 2] = [1, 8];
const SOME_PAIRS: [usize; 4] = [3, 64, 511, 4_096];
const PART_PAIRS: [usize; 2] = [3, 64];

/// Two lost disks.
type Pair = (usize, usize);

pub fn run(setting: &mut Setting, group: &mut Group) {
    let random = &mut setting.random;
    for p in WIDTHS {
        for s in ALL_PAIRS {
            full_pairs(group, random, Shape::full(p, s));
        }
    }
    for (p, k) in arrays::every() {
        part_pairs(group, random, Shape::new(p, k, 1));
    }
    for (p, k) in arrays::some() {
        let sizes: &[usize] = if k == p { &SOME_PAIRS } else { &PART_PAIRS };
        for &s in sizes {
            some_pairs(group, random, Shape::new(p, k, s));
            refused_lengths(group, random, Shape::new(p, k, s));
        }
        refused_disks(group, random, p, k);
    }
    refused_numbers(group, random);
    little_stack(group, random);
}

// Accepted calls.

/// Every pair in both orders.
fn full_pairs(group: &mut Group, random: &mut Random, shape: Shape) {
    for first in shape.all_disks() {
        for second in shape.all_disks().filter(|second| *second != first) {
            exact(group, random, shape, (first, second));
            any_survivors(group, random, shape, (first, second));
            extreme_survivors(group, random, shape, (first, second));
        }
    }
}

/// Every pair of fewer data disks than rows, in one of its orders, as in the full array.
fn part_pairs(group: &mut Group, random: &mut Random, shape: Shape) {
    if shape == full_shape(shape) {
        return;
    }
    for first in shape.all_disks() {
        for second in 0..first {
            let pair = if random.once_in(2) { (first, second) } else { (second, first) };
            beside_full(group, random, shape, pair);
        }
    }
}

fn some_pairs(group: &mut Group, random: &mut Random, shape: Shape) {
    let k = shape.disks;
    let pairs = [(0, 1), (k - 1, 0), (k, k + 1), (k + 1, k), (0, k), (k + 1, 1), (k - 2, k - 1)];
    for pair in pairs {
        exact(group, random, shape, pair);
        any_survivors(group, random, shape, pair);
    }
    let first = random.below(k);
    let second = (first + 1 + random.below(k - 1)) % k;
    exact(group, random, shape, (first, second));
}

/// Both columns of a clean stripe are scrambled and come back, and nothing else changes.
fn exact(group: &mut Group, random: &mut Random, shape: Shape, (first, second): Pair) {
    let mut stripe = clean_stripe(random, shape);
    let before = stripe.clone();
    random.fill(&mut stripe.part()[disk_place(shape, first)]);
    random.fill(&mut stripe.part()[disk_place(shape, second)]);
    let got = rebuild_two(shape, first, second, stripe.part());
    let call = || format!("rebuild_two({shape:?}, {first}, {second}, clean)");
    group.same(call, ACCEPTED, got);
    group.same_stripe(|| format!("{}, memory", call()), shape, before.whole(), stripe.whole());
}

/// Any contents of the other disks: the result is clean, and the other disks are as they were.
fn any_survivors(group: &mut Group, random: &mut Random, shape: Shape, pair: Pair) {
    let mut stripe = Lent::noise(stripe_length(shape), random);
    made_clean(group, shape, pair, &mut stripe);
}

/// Survivors that are all zeros or all ones, and ones with a single bit set; the lost disks hold the opposite.
fn extreme_survivors(group: &mut Group, random: &mut Random, shape: Shape, pair: Pair) {
    for (byte, single) in [(0x00, false), (0xFF, false), (0x00, true)] {
        let mut stripe = Lent::of(&vec![byte; stripe_length(shape)], random);
        if single {
            let place = random.below(stripe_length(shape));
            stripe.part()[place] ^= 1 << random.below(8);
        }
        for disk in [pair.0, pair.1] {
            stripe.part()[disk_place(shape, disk)].fill(!byte);
        }
        made_clean(group, shape, pair, &mut stripe);
    }
}

/// The call makes the stripe clean and leaves the other disks as they were.
fn made_clean(group: &mut Group, shape: Shape, (first, second): Pair, stripe: &mut Lent) {
    let mut before = stripe.clone();
    let got = rebuild_two(shape, first, second, stripe.part());
    let call = || format!("rebuild_two({shape:?}, {first}, {second}, any survivors)");
    group.same(call, ACCEPTED, got);
    group.same(|| format!("{}, clean", call()), YES, check_stripe(shape, stripe.part()).clean);
    for disk in [first, second] {
        let place = disk_place(shape, disk);
        let column = stripe.part()[place.clone()].to_vec();
        before.part()[place].copy_from_slice(&column);
    }
    group.same_stripe(|| format!("{}, other disks", call()), shape, before.whole(), stripe.whole());
}

/// Absent disks count as zero: with any survivors the result is the full array's from the stripe
/// with zeros in their place.
fn beside_full(group: &mut Group, random: &mut Random, shape: Shape, pair: Pair) {
    let mut stripe = Lent::noise(stripe_length(shape), random);
    let mut wide = widened(shape, stripe.part());
    made_clean(group, shape, pair, &mut stripe);
    let [first, second] = [pair.0, pair.1].map(|disk| full_disk(shape.width, shape.disks, disk));
    let got = rebuild_two(full_shape(shape), first, second, &mut wide);
    let call = || format!("rebuild_two({shape:?}, {pair:?}), beside the full array's");
    group.same(call, ACCEPTED, got);
    group.same_stripe(call, full_shape(shape), &wide, &widened(shape, stripe.part()));
}

// Calls of which most are refused.

/// A call on random bytes.
fn answered(group: &mut Group, random: &mut Random, shape: Shape, pair: Pair, length: usize) {
    answered_on(group, shape, pair, &mut Lent::noise(length, random));
}

/// A refused call gives its number and changes nothing, an accepted one rebuilds.
fn answered_on(group: &mut Group, shape: Shape, (first, second): Pair, stripe: &mut Lent) {
    let length = stripe.part().len();
    let expected = model::rebuild_two(shape, first, second, length);
    if expected == ACCEPTED {
        return made_clean(group, shape, (first, second), stripe);
    }
    let before = stripe.clone();
    let got = rebuild_two(shape, first, second, stripe.part());
    let call = || format!("rebuild_two({shape:?}, {first}, {second}), length {length}");
    group.same(call, expected, got);
    group.same_stripe(|| format!("{}, memory", call()), shape, before.whole(), stripe.whole());
}

fn refused_lengths(group: &mut Group, random: &mut Random, shape: Shape) {
    let right = stripe_length(shape);
    let column = shape.width * shape.cell_size;
    let full = stripe_length(full_shape(shape));
    for length in [0, 1, column, right - column, right - 1, right + 1, 2 * right, full] {
        answered(group, random, shape, (0, shape.disks), length);
        answered(group, random, shape, (3, 3), length);
    }
}

fn refused_disks(group: &mut Group, random: &mut Random, p: usize, k: usize) {
    let disks = [0, k, k + 1, k + 2, k + 3, p + 1, 1 << 32, usize::MAX];
    let sizes: &[usize] = if k == p || p <= 7 { &[1, 0, 4_097] } else { &[1, 0] };
    for &s in sizes {
        let shape = Shape::new(p, k, s);
        for length in [stripe_length(shape), stripe_length(shape) + 1] {
            let mut stripe = Lent::noise(length, random);
            for first in disks {
                for second in disks {
                    answered_on(group, shape, (first, second), &mut stripe);
                }
            }
        }
    }
}

/// Widths with sizes, and widths with data disks, each good or bad, with pairs and lengths that are so too.
fn refused_numbers(group: &mut Group, random: &mut Random) {
    let mut shapes = numbers::any_shapes();
    for width in numbers::any_widths() {
        shapes.extend([1, 0, 4_097, usize::MAX].map(|size| Shape::full(width, size)));
    }
    for shape in shapes {
        let k = shape.disks;
        let right = stripe_length(numbers::cut_shapes(shape)[0]);
        for pair in [(0, 1), (1, 1), (k, k), (0, k.wrapping_add(1)), (k.wrapping_add(2), 0)] {
            for length in [35, right, numbers::wrapped_length(shape)] {
                answered(group, random, shape, pair, length);
            }
        }
    }
}

// Stack.

/// The widest array, and one with fewer disks, on a thread with little stack.
fn little_stack(group: &mut Group, random: &mut Random) {
    for (shape, first, second) in
        [(Shape::full(31, 4_096), 7, 20), (Shape::new(29, 14, 4_096), 13, 4)]
    {
        let mut stripe = clean_stripe(random, shape);
        let before = stripe.clone();
        random.fill(&mut stripe.part()[disk_place(shape, first)]);
        random.fill(&mut stripe.part()[disk_place(shape, second)]);
        small_stack::run(|| rebuild_two(shape, first, second, stripe.part()));
        let call = || format!("rebuild_two({shape:?}, {first}, {second}) on 64 KiB of stack");
        group.same_stripe(call, shape, before.whole(), stripe.whole());
    }
}
