//! Missing cells: every pattern of the smallest arrays beside all clean stripes, random patterns of all arrays on clean
//! and dirty stripes, whole disks beside the calls that rebuild them, and refused calls.

use super::calls::rebuild_cells;
use super::determined::determined;
use super::model::{self, missing_cells};
use super::patterns::pattern;
use crate::groups::rebuild_one::calls::rebuild_one;
use crate::groups::rebuild_two::calls::rebuild_two;
use crate::harness::answer::{Answer, ACCEPTED};
use crate::harness::model::{
    cell_place, column_length, disk_place, encode, full_shape, stripe_length,
};
use crate::harness::stripes::clean_stripe;
use crate::harness::{arrays, numbers, small_stack, Group, Lent, Random, Seen, Setting, Shape};

/// Random patterns for each array.
const PATTERNS: usize = 40;

pub fn run(setting: &mut Setting, group: &mut Group) {
    let random = &mut setting.random;
    let mut seen = Seen::new("rebuild_cells");
    every_pattern(group, random, Shape::new(3, 2, 1), &mut seen);
    every_pattern(group, random, Shape::full(3, 1), &mut seen);
    for (p, k) in arrays::every() {
        for round in 0..PATTERNS {
            let shape = Shape::new(p, k, [1, 2, 7, 24][round % 4]);
            let marks = pattern(random, shape);
            on_noise(group, random, shape, &marks, &mut seen);
            on_clean(group, random, shape, &marks);
        }
        one_disk(group, random, Shape::new(p, k, 3));
        whole_disks(group, random, Shape::new(p, k, 3));
    }
    for (p, k) in arrays::some() {
        refused_lengths(group, random, Shape::new(p, k, 2), &mut seen);
    }
    refused_numbers(group, random, &mut seen);
    seen.each_came(group, &[0, 1, 2, 5, 13, 23]);
    little_stack(group, random);
}

/// Mends, and compares the answer, the stripe, the marks and all memory around.
fn same_mend(group: &mut Group, shape: Shape, marks: &mut Lent, stripe: &mut Lent) -> Answer {
    let (mut sent, mut wanted) = (marks.clone(), stripe.clone());
    let got = rebuild_cells(shape, marks.part(), stripe.part());
    let expected = model::rebuild_cells(shape, sent.part(), wanted.part());
    let given = marks.part().to_vec();
    let length = stripe.part().len();
    let call = || format!("rebuild_cells({shape:?}, {given:?}), stripe of {length}");
    group.same(call, expected, got);
    group.same_stripe(|| format!("{}, stripe", call()), shape, wanted.whole(), stripe.whole());
    group.same_bytes(|| format!("{}, marks", call()), sent.whole(), marks.whole());
    got
}

// Accepted calls and those refused by 23.

/// Fills the marked cells anew; the mend must not depend on them.
fn scramble(random: &mut Random, shape: Shape, marks: &[u8], stripe: &mut Lent) {
    for cell in missing_cells(shape, marks) {
        random.fill(&mut stripe.part()[cell_place(shape, cell)]);
    }
}

/// A dirty stripe, twice with the same survivors: what is not missing stands, and what was missing is not read.
fn on_noise(group: &mut Group, random: &mut Random, shape: Shape, marks: &[u8], seen: &mut Seen) {
    let mut lent = Lent::of(marks, random);
    let mut stripe = Lent::noise(stripe_length(shape), random);
    let mut again = stripe.clone();
    let got = same_mend(group, shape, &mut lent, &mut stripe);
    seen.note(got);
    if got == ACCEPTED {
        scramble(random, shape, marks, &mut again);
        rebuild_cells(shape, marks, again.part());
        let call = || format!("rebuild_cells({shape:?}, {marks:?}), other bytes missing");
        group.same_stripe(call, shape, stripe.whole(), again.whole());
    }
}

/// A clean stripe whose missing cells hold anything comes back.
fn on_clean(group: &mut Group, random: &mut Random, shape: Shape, marks: &[u8]) {
    let clean = clean_stripe(random, shape);
    let mut stripe = clean.clone();
    scramble(random, shape, marks, &mut stripe);
    if rebuild_cells(shape, marks, stripe.part()) == ACCEPTED {
        let call = || format!("rebuild_cells({shape:?}, {marks:?}), clean");
        group.same_stripe(call, shape, clean.whole(), stripe.whole());
    }
}

/// The cells of each clean stripe of bits that are 1, a bit for each place.
fn clean_words(shape: Shape) -> Vec<u32> {
    let word_of = |data: u32| {
        let bits = (0..stripe_length(shape)).map(|place| (data >> place & 1) as u8);
        let mut stripe: Vec<u8> = bits.collect();
        encode(shape, &mut stripe);
        stripe.iter().enumerate().map(|(place, bit)| u32::from(*bit) << place).sum()
    };
    (0..1 << shape.data_length()).map(word_of).collect()
}

/// Every pattern is refused by 23 exactly if two different clean stripes agree off it: if a clean stripe that is not zero
/// lies within it.
fn every_pattern(group: &mut Group, random: &mut Random, shape: Shape, seen: &mut Seen) {
    let words = clean_words(shape);
    for word in 0..1_u32 << stripe_length(shape) {
        let bit = |place: usize| (word >> place & 1) as u8;
        let marks: Vec<u8> = (0..stripe_length(shape)).map(bit).collect();
        let within = words.iter().any(|clean| *clean != 0 && clean & !word == 0);
        let cells = missing_cells(shape, &marks);
        let call = |what: &str| format!("{shape:?}, {marks:?} is determined, by {what}");
        group.same(|| call("the model"), !within, determined(shape.width, shape.disks, &cells));
        let mut stripe = vec![0; stripe_length(shape)];
        let accepted = rebuild_cells(shape, &marks, &mut stripe) == ACCEPTED;
        group.same(|| call("the library"), !within, accepted);
        on_noise(group, random, shape, &marks, seen);
        on_clean(group, random, shape, &marks);
    }
}

/// Each whole disk among dirty survivors; P and Q come as the rebuild of one gives them.
fn one_disk(group: &mut Group, random: &mut Random, shape: Shape) {
    let p = shape.width;
    for disk in shape.all_disks() {
        let mut marks = vec![0; p * (shape.disks + 2)];
        marks[disk * p..(disk + 1) * p].fill(1);
        let mut stripe = Lent::noise(stripe_length(shape), random);
        let mut column = vec![0; column_length(shape)];
        rebuild_one(shape, disk, stripe.part(), &mut column);
        let got = same_mend(group, shape, &mut Lent::of(&marks, random), &mut stripe);
        let call = || format!("rebuild_cells({shape:?}) of disk {disk}");
        group.same(call, ACCEPTED, got);
        if disk >= shape.disks {
            group.same_bytes(call, &column, &stripe.part()[disk_place(shape, disk)]);
        }
    }
}

/// Two whole disks come as the rebuild of two gives them, dirty survivors too; each pair of small arrays, some of others.
fn whole_disks(group: &mut Group, random: &mut Random, shape: Shape) {
    let p = shape.width;
    for first in shape.all_disks() {
        for second in 0..first {
            if p > 7 && !random.once_in(p) {
                continue;
            }
            let mut marks = vec![0; p * (shape.disks + 2)];
            marks[first * p..(first + 1) * p].fill(1);
            marks[second * p..(second + 1) * p].fill(1);
            let mut stripe = Lent::noise(stripe_length(shape), random);
            let mut expected = stripe.clone();
            let got = rebuild_cells(shape, &marks, stripe.part());
            rebuild_two(shape, first, second, expected.part());
            let call = || format!("rebuild_cells({shape:?}) of disks {first} and {second}");
            group.same(call, ACCEPTED, got);
            group.same_stripe(call, shape, expected.whole(), stripe.whole());
        }
    }
}

// Refused calls.

fn with_lengths(
    group: &mut Group,
    random: &mut Random,
    shape: Shape,
    (marks, stripe): (usize, usize),
    seen: &mut Seen,
) {
    let mut marks = Lent::noise(marks, random);
    let mut stripe = Lent::noise(stripe, random);
    let got = same_mend(group, shape, &mut marks, &mut stripe);
    seen.note(got);
}

/// One length wrong at a time, then both.
fn refused_lengths(group: &mut Group, random: &mut Random, shape: Shape, seen: &mut Seen) {
    let (marks, right) = (shape.width * (shape.disks + 2), stripe_length(shape));
    let column = column_length(shape);
    for length in [0, 1, marks - shape.width, marks - 1, marks + 1, right] {
        with_lengths(group, random, shape, (length, right), seen);
        with_lengths(group, random, shape, (length, right + 1), seen);
    }
    for length in [0, 1, right - column, right - 1, right + 1, stripe_length(full_shape(shape)) + 1]
    {
        with_lengths(group, random, shape, (marks, length), seen);
    }
}

fn refused_numbers(group: &mut Group, random: &mut Random, seen: &mut Seen) {
    for shape in numbers::any_shapes() {
        let [cut, _] = numbers::cut_shapes(shape);
        let marks = cut.width * (cut.disks + 2);
        for stripe in [0, stripe_length(cut), numbers::wrapped_length(shape)] {
            with_lengths(group, random, shape, (marks, stripe), seen);
        }
    }
}

// Stack.

/// The largest stripe with two disks missing on a thread with little stack.
fn little_stack(group: &mut Group, random: &mut Random) {
    let shape = Shape::full(31, 4_096);
    let clean = clean_stripe(random, shape);
    let mut stripe = clean.clone();
    let mut marks = vec![0; 31 * 33];
    for disk in [3, 20] {
        marks[disk * 31..(disk + 1) * 31].fill(1);
        random.fill(&mut stripe.part()[disk_place(shape, disk)]);
    }
    let part = stripe.part();
    let got = small_stack::run(|| rebuild_cells(shape, &marks, part));
    let call = || format!("rebuild_cells({shape:?}, two disks) on 64 KiB of stack");
    group.same(call, ACCEPTED, got);
    group.same_stripe(call, shape, clean.whole(), stripe.whole());
}
