//! The rebuild with tested survivors: clean stripes with anything on the lost disk, one bit of a survivor changed, disks
//! exchanged, and every content of the survivors of the smallest arrays with every column tried.

use super::calls::rebuild_tested;
use super::{model, refused};
use crate::groups::encode::model::clean;
use crate::groups::rebuild_one::calls::rebuild_one;
use crate::groups::rebuild_one::checks::cells_off_list;
use crate::harness::answer::{Answer, ACCEPTED};
use crate::harness::model::{
    cell_place, column_length, disk_place, full_disk, full_shape, our_steps, stripe_length, widened,
};
use crate::harness::stripes::{clean_stripe, EXAMPLE, PART_EXAMPLE};
use crate::harness::{arrays, small_stack, Group, Lent, Random, Setting, Shape};

pub fn run(setting: &mut Setting, group: &mut Group) {
    let random = &mut setting.random;
    example(group, random, Shape::full(3, 1), &EXAMPLE);
    example(group, random, Shape::new(3, 2, 1), &PART_EXAMPLE);
    every_survivor(group, random, 2);
    every_survivor(group, random, 3);
    for (p, k) in arrays::some() {
        let sizes: &[usize] = if p <= 7 { &[1, 3, 64] } else { &[2] };
        for shape in sizes.iter().map(|s| Shape::new(p, k, *s)) {
            clean_losses(group, random, shape);
            changed_bits(group, random, shape);
            noise(group, random, shape);
        }
        exchanged(group, random, Shape::new(p, k, 16));
        beside_full(group, random, Shape::new(p, k, 2));
    }
    refused::run(group, random);
    little_stack(group, random);
}

/// Rebuilds, and compares the answer, the column, the stripe and all memory around; gives the answer.
pub fn same_tested(
    group: &mut Group,
    shape: Shape,
    lost: usize,
    stripe: &mut Lent,
    column: &mut Lent,
) -> Answer {
    let mut wanted = column.clone();
    let mut before = stripe.clone();
    let got = rebuild_tested(shape, lost, stripe.part(), column.part());
    let expected = model::rebuild_tested(shape, lost, before.part(), wanted.part());
    let lengths = (stripe.part().len(), column.part().len());
    let call = || format!("rebuild_tested({shape:?}, {lost}), stripe and column of {lengths:?}");
    group.same(call, expected, got);
    group.same_column(|| format!("{}, column", call()), shape, wanted.whole(), column.whole());
    group.same_stripe(|| format!("{}, stripe", call()), shape, before.whole(), stripe.whole());
    got
}

/// A call of which the answer is known; a refused one leaves the column, an accepted one leaves these cells in it.
fn says(
    group: &mut Group,
    random: &mut Random,
    (shape, lost): (Shape, usize),
    stripe: &mut Lent,
    expected: Option<&[u8]>,
    what: &str,
) {
    let mut column = Lent::noise(column_length(shape), random);
    let before = column.part().to_vec();
    let got = same_tested(group, shape, lost, stripe, &mut column);
    let call = || format!("rebuild_tested({shape:?}, {lost}), {what}");
    group.same(call, expected.map_or(Answer::of(19), |_| ACCEPTED), got);
    group.same_column(
        || format!("{}, column", call()),
        shape,
        expected.unwrap_or(&before),
        column.part(),
    );
}

// Survivors of a clean stripe.

/// Each disk of a stripe of size 1 whose P and Q are known.
fn example(group: &mut Group, random: &mut Random, shape: Shape, known: &[u8]) {
    for lost in shape.all_disks() {
        let place = disk_place(shape, lost);
        let mut stripe = Lent::of(known, random);
        random.fill(&mut stripe.part()[place.clone()]);
        says(group, random, (shape, lost), &mut stripe, Some(&known[place]), "example");
    }
}

/// Each disk of a clean stripe is lost in turn and comes back, whatever stands in its place: its own cells, zeros, noise.
fn clean_losses(group: &mut Group, random: &mut Random, shape: Shape) {
    let mut stripe = clean_stripe(random, shape);
    for lost in shape.all_disks() {
        let place = disk_place(shape, lost);
        let cells = stripe.part()[place.clone()].to_vec();
        let case = (shape, lost);
        says(group, random, case, &mut stripe, Some(&cells), "clean");
        stripe.part()[place.clone()].fill(0);
        says(group, random, case, &mut stripe, Some(&cells), "clean but for zeros");
        random.fill(&mut stripe.part()[place.clone()]);
        says(group, random, case, &mut stripe, Some(&cells), "clean but for noise");
        stripe.part()[place].copy_from_slice(&cells);
    }
}

// Survivors of none.

/// One bit of every surviving cell in turn, of some for widths over 13: refused, since clean stripes that differ do so on
/// three disks. Off the read list the rebuild without a test accepts it, and gives the disk as if nothing had changed.
fn changed_bits(group: &mut Group, random: &mut Random, shape: Shape) {
    let p = shape.width;
    let mut stripe = clean_stripe(random, shape);
    for lost in shape.all_disks() {
        let cells = stripe.part()[disk_place(shape, lost)].to_vec();
        let off_list = cells_off_list(shape, lost, &our_steps(p, shape.disks, lost));
        for (row, disk) in (0..p * (shape.disks + 2)).map(|place| (place % p, place / p)) {
            if disk == lost || p > 13 && !random.once_in(8) {
                continue;
            }
            let byte = cell_place(shape, (row, disk)).start + random.below(shape.cell_size);
            let bit = 1 << random.below(8);
            stripe.part()[byte] ^= bit;
            let what = format!("a bit of {:?} changed", (row, disk));
            says(group, random, (shape, lost), &mut stripe, None, &what);
            if off_list.contains(&(row, disk)) {
                let mut column = vec![0; cells.len()];
                let got = rebuild_one(shape, lost, stripe.part(), &mut column);
                let call = || format!("rebuild_one({shape:?}, {lost}), {what}");
                group.same(call, ACCEPTED, got);
                group.same_column(call, shape, &cells, &column);
            }
            stripe.part()[byte] ^= bit;
        }
    }
}

/// Noise, and noise on two surviving disks of a clean stripe.
fn noise(group: &mut Group, random: &mut Random, shape: Shape) {
    let mut stripe = Lent::noise(stripe_length(shape), random);
    let mut other = clean_stripe(random, shape);
    let disks = shape.disks + 2;
    for lost in shape.all_disks() {
        let mut column = Lent::noise(column_length(shape), random);
        same_tested(group, shape, lost, &mut stripe, &mut column);
        let before = other.clone();
        for disk in [(lost + 1) % disks, (lost + 2) % disks] {
            random.fill(&mut other.part()[disk_place(shape, disk)]);
        }
        same_tested(group, shape, lost, &mut other, &mut column);
        other = before;
    }
}

/// Two surviving disks in each other's place. With Q lost the rows still XOR to zero, so what stands there is a clean
/// stripe's; so it is if the lost disk and the two are disk 0, P and Q, as D i holds row i of disk 0 and no extra cell of
/// it. All other exchanges are refused, of two disks that differ.
fn exchanged(group: &mut Group, random: &mut Random, shape: Shape) {
    let (p, q, disks) = (shape.disks, shape.disks + 1, shape.disks + 2);
    let clean = clean_stripe(random, shape);
    for lost in shape.all_disks() {
        for (a, b) in (0..disks).flat_map(|a| (a + 1..disks).map(move |b| (a, b))) {
            let far = shape.width > 7 && b != a + 1 && (a, b) != (0, q) && !random.once_in(disks);
            if a == lost || b == lost || far {
                continue;
            }
            let mut stripe = clean.clone();
            let (low, high) = stripe.part().split_at_mut(disk_place(shape, b).start);
            let length = column_length(shape);
            low[disk_place(shape, a)].swap_with_slice(&mut high[..length]);
            let mut column = Lent::noise(length, random);
            let got = same_tested(group, shape, lost, &mut stripe, &mut column);
            let mut three = [lost, a, b];
            three.sort();
            let accepted = lost == q || three == [0, p, q];
            let expected = if accepted { ACCEPTED } else { Answer::of(19) };
            let call = || format!("rebuild_tested({shape:?}, {lost}), {a} and {b} exchanged");
            group.same(call, expected, got);
        }
    }
}

// Beside other ways to say it.

/// Every content of the surviving disks of width 3 with bytes 0 or 1: refused exactly if no column in the lost disk's
/// place makes the stripe clean, and else one does, and that one is written.
fn every_survivor(group: &mut Group, random: &mut Random, k: usize) {
    let shape = Shape::new(3, k, 1);
    for lost in shape.all_disks() {
        let place = disk_place(shape, lost);
        for bits in 0..1u32 << (3 * (k + 1)) {
            let mut bytes: Vec<u8> = (0..3 * (k + 1)).map(|i| (bits >> i & 1) as u8).collect();
            bytes.splice(place.start..place.start, [0; 3]);
            let mut columns = (0..8u8).map(|c| [0, 1, 2].map(|row| c >> row & 1));
            let fit = columns.find(|column| {
                bytes[place.clone()].copy_from_slice(column);
                clean(shape, &bytes)
            });
            random.fill(&mut bytes[place.clone()]);
            let mut stripe = Lent::of(&bytes, random);
            let expected = fit.as_ref().map(|column| &column[..]);
            says(group, random, (shape, lost), &mut stripe, expected, &format!("bits {bits:#b}"));
        }
    }
}

/// The full array with zeros on the absent disks says the same, of survivors of a clean stripe and of others.
fn beside_full(group: &mut Group, random: &mut Random, shape: Shape) {
    let mut stripe = clean_stripe(random, shape);
    for lost in shape.all_disks() {
        let other = disk_place(shape, (lost + 1) % (shape.disks + 2)).start;
        for bit in [0, 1] {
            stripe.part()[other] ^= bit;
            let mut column = Lent::noise(column_length(shape), random);
            let mut wide_column = column.part().to_vec();
            let got = same_tested(group, shape, lost, &mut stripe, &mut column);
            let wide = widened(shape, stripe.part());
            let full = full_disk(shape.width, shape.disks, lost);
            let expected = rebuild_tested(full_shape(shape), full, &wide, &mut wide_column);
            let call = || format!("rebuild_tested({shape:?}, {lost}), beside the full array's");
            group.same(call, expected, got);
            group.same_column(call, shape, &wide_column, column.part());
            stripe.part()[other] ^= bit;
        }
    }
}

// Stack.

/// The largest stripe, and one with fewer disks, on a thread with little stack: accepted, then the last byte changed.
fn little_stack(group: &mut Group, random: &mut Random) {
    for shape in [Shape::full(31, 4_096), Shape::new(29, 14, 4_096)] {
        let mut stripe = clean_stripe(random, shape);
        for lost in [0, shape.disks / 2, shape.disks] {
            let last = stripe_length(shape) - 1;
            for (bit, expected) in [(0, ACCEPTED), (1, Answer::of(19))] {
                stripe.part()[last] ^= bit;
                let cells = stripe.part()[disk_place(shape, lost)].to_vec();
                let mut column = vec![0; column_length(shape)];
                let (from, to) = (stripe.part(), &mut column);
                let got = small_stack::run(|| rebuild_tested(shape, lost, from, to));
                let call = || format!("rebuild_tested({shape:?}, {lost}) on 64 KiB of stack");
                group.same(call, expected, got);
                let wanted = if bit == 0 { cells } else { vec![0; column_length(shape)] };
                group.same_column(call, shape, &wanted, &column);
                stripe.part()[last] ^= bit;
            }
        }
    }
}
