//! The update of one cell: what changes and what stands, the XOR of every set, encoding anew, and refused calls.

use super::calls::update_cell;
use super::{model, orders};
use crate::groups::encode::calls::encode_stripe;
use crate::harness::answer::Answer;
use crate::harness::model::{
    cell_place, extra_cell, set_cells, stripe_length, sum_of, Cell, WIDTHS,
};
use crate::harness::stripes::{clean_stripe, EXAMPLE};
use crate::harness::{arrays, numbers, small_stack, Group, Lent, Random, Setting, Shape};

/// Cell sizes for some cells of some arrays.
const SOME_SIZES: [usize; 5] = [2, 7, 64, 511, 4_096];

pub fn run(setting: &mut Setting, group: &mut Group) {
    let random = &mut setting.random;
    example(group, random);
    for (p, k) in arrays::some() {
        every_cell(group, random, Shape::new(p, k, 1));
        orders::run(group, random, Shape::new(p, k, 1));
        every_fault(group, random, p, k);
        for s in SOME_SIZES.into_iter().filter(|s| *s <= 64 || p <= 7 || k == p) {
            some_cells(group, random, Shape::new(p, k, s));
            wrong_lengths(group, random, Shape::new(p, k, s));
        }
        if p <= 7 {
            every_cell(group, random, Shape::new(p, k, 3));
            orders::run(group, random, Shape::new(p, k, 3));
        }
    }
    refused_numbers(group, random);
    little_stack(group, random);
}

/// Updates, and compares the answer, the stripe, the new cell and all memory around.
fn same_update(group: &mut Group, shape: Shape, cell: Cell, stripe: &mut Lent, new: &mut Lent) {
    let (mut wanted, mut before) = (stripe.clone(), new.clone());
    let got = update_cell(shape, cell, stripe.part(), new.part());
    let expected = model::update_cell(shape, cell, wanted.part(), before.part());
    let lengths = (stripe.part().len(), new.part().len());
    let call = || format!("update_cell({shape:?}, {cell:?}), stripe and cell of {lengths:?}");
    group.same(call, expected, got);
    group.same_stripe(|| format!("{}, stripe", call()), shape, wanted.whole(), stripe.whole());
    group.same_bytes(|| format!("{}, cell", call()), before.whole(), new.whole());
}

// Accepted calls.

/// An extra cell of document 01's stripe; what changes was worked out by hand: its row set, D 0 and D 1.
fn example(group: &mut Group, random: &mut Random) {
    let shape = Shape::full(3, 1);
    let mut stripe = Lent::of(&EXAMPLE, random);
    same_update(group, shape, (1, 1), &mut stripe, &mut Lent::of(&[0x11], random));
    let mut wanted = EXAMPLE;
    wanted[4] = 0x11;
    wanted[10..14].copy_from_slice(&[0x39, 0xC0, 0x10, 0x9D]);
    group.same_stripe(|| "update_cell(example)".into(), shape, &wanted, stripe.part());
}

/// The data cells of an array.
pub fn data_cells(shape: Shape) -> Vec<Cell> {
    (0..shape.disks).flat_map(|c| (0..shape.width).map(move |i| (i, c))).collect()
}

fn every_cell(group: &mut Group, random: &mut Random, shape: Shape) {
    for cell in data_cells(shape) {
        clean_and_dirty(group, random, shape, cell);
    }
}

/// The first and the last cell, an extra cell where there is one, and a random one.
fn some_cells(group: &mut Group, random: &mut Random, shape: Shape) {
    let Shape { width: p, disks: k, .. } = shape;
    let mut cells = vec![(0, 0), (p - 1, k - 1), (random.below(p), random.below(k))];
    cells.extend((1..p).find_map(|i| extra_cell(p, k, i)));
    for cell in cells {
        clean_and_dirty(group, random, shape, cell);
    }
}

fn clean_and_dirty(group: &mut Group, random: &mut Random, shape: Shape, cell: Cell) {
    let mut clean = clean_stripe(random, shape);
    let mut dirty = Lent::noise(stripe_length(shape), random);
    for (stripe, name) in [(&mut clean, "clean"), (&mut dirty, "dirty")] {
        let new = other_bytes(random, shape, cell, stripe);
        let before = stripe.part().to_vec();
        same_update(group, shape, cell, stripe, &mut Lent::of(&new, random));
        let call = |what: &str| format!("update_cell({shape:?}, {cell:?}, {name}), {what}");
        let place = cell_place(shape, cell);
        group.same_bytes(|| call("new bytes"), &new, &stripe.part()[place.clone()]);
        group.same(|| call("XOR of each set"), sums(shape, &before), sums(shape, stripe.part()));
        let changed = changed_cells(shape, &before, stripe.part());
        group.same(|| call("cells changed"), may_change(shape, cell), changed);
        let after = stripe.clone();
        same_update(group, shape, cell, stripe, &mut Lent::of(&new, random));
        group.same_stripe(|| call("the same bytes again"), shape, after.whole(), stripe.whole());
        if name == "clean" {
            let mut anew = before;
            anew[place].copy_from_slice(&new);
            encode_stripe(shape, &mut anew);
            group.same_stripe(|| call("beside encoding anew"), shape, &anew, stripe.part());
        }
    }
}

/// Bytes for a cell, one of them at least another than those that it has.
fn other_bytes(random: &mut Random, shape: Shape, cell: Cell, stripe: &mut Lent) -> Vec<u8> {
    let mut new = vec![0; shape.cell_size];
    random.fill(&mut new);
    let byte = random.below(shape.cell_size);
    let old = stripe.part()[cell_place(shape, cell)][byte];
    new[byte] = old ^ (1 + random.below(255)) as u8;
    new
}

/// The XOR of every set: the rows', then the diagonals'.
fn sums(shape: Shape, stripe: &[u8]) -> Vec<Vec<u8>> {
    let sets = (0..2).flat_map(|kind| (0..shape.width).map(move |i| (kind, i)));
    let cells = |(kind, i)| set_cells(shape.width, shape.disks, kind, i);
    sets.map(|set| sum_of(shape, stripe, &cells(set))).collect()
}

/// The cells in which two stripes differ.
fn changed_cells(shape: Shape, before: &[u8], after: &[u8]) -> Vec<Cell> {
    let all = shape.all_disks().flat_map(|c| (0..shape.width).map(move |i| (i, c)));
    let changed = |place: std::ops::Range<usize>| before[place.clone()] != after[place];
    all.filter(|cell| changed(cell_place(shape, *cell))).collect()
}

/// The cell, its P cell, and one Q cell, two for an extra cell.
fn may_change(shape: Shape, cell: Cell) -> Vec<Cell> {
    let Shape { width: p, disks: k, .. } = shape;
    let (row, disk) = cell;
    let extra = (1..p).find(|i| extra_cell(p, k, *i) == Some(cell));
    let mut diagonals = vec![(row + p - disk) % p];
    diagonals.extend(extra);
    diagonals.sort();
    let mut cells = vec![cell, (row, k)];
    cells.extend(diagonals.into_iter().map(|i| (i, k + 1)));
    cells
}

// Refused calls.

/// The refusals in the order in which they are tested, and what brings each: width, data disks, size, disk, the
/// stripe's length, the cell's, row.
const ORDER: [u8; 7] = [1, 13, 2, 3, 5, 5, 15];

/// Every mix of faults: the first in the order decides, and nothing changes.
fn every_fault(group: &mut Group, random: &mut Random, p: usize, k: usize) {
    for mix in 1..1 << ORDER.len() {
        let bad = |n: usize| mix >> n & 1 == 1;
        let or = |n: usize, bad_one: usize, good: usize| if bad(n) { bad_one } else { good };
        let shape = Shape::new(
            or(0, *random.pick(&[0, 9, p + 1, (1 << 32) + p]), p),
            or(1, *random.pick(&[0, 1, 32, (1 << 32) + k, usize::MAX]), k),
            or(2, *random.pick(&[0, 4_097, (1 << 32) + 1]), 1),
        );
        let disk = or(3, *random.pick(&[k, k + 1, k + 2, 1 << 32, usize::MAX]), k - 1);
        let row = or(6, *random.pick(&[p, p + 1, 1 << 32, usize::MAX]), p - 1);
        let right = stripe_length(Shape::new(p, k, 1));
        let mut stripe =
            Lent::noise(or(4, *random.pick(&[0, right - 1, right + 1]), right), random);
        let mut new = Lent::noise(or(5, *random.pick(&[0, 2, right]), 1), random);
        let before = stripe.clone();
        let got = update_cell(shape, (row, disk), stripe.part(), new.part());
        let first = (0..ORDER.len()).find(|n| bad(*n)).map(|n| Answer::of(ORDER[n]));
        let call = || format!("update_cell({shape:?}, {:?}), faults {mix:#b}", (row, disk));
        group.same(call, first, Some(got));
        group.same_stripe(|| format!("{}, memory", call()), shape, before.whole(), stripe.whole());
        same_update(group, shape, (row, disk), &mut stripe, &mut new);
    }
}

/// Lengths of the stripe and of the cell around the right ones, with a row and a disk that are there or not.
fn wrong_lengths(group: &mut Group, random: &mut Random, shape: Shape) {
    let Shape { width: p, disks: k, cell_size: s } = shape;
    let right = stripe_length(shape);
    let mut lengths = vec![(right, 0), (right, s - 1), (right, s + 1), (right, 2 * s)];
    lengths.extend([0, right - 1, right + 1, right - s, right + p * s].map(|long| (long, s)));
    for (stripe, new) in lengths {
        let (mut stripe, mut new) = (Lent::noise(stripe, random), Lent::noise(new, random));
        for cell in [(0, 0), (p, 0), (0, k), (p - 1, k + 1)] {
            same_update(group, shape, cell, &mut stripe, &mut new);
        }
    }
}

/// Every mix of widths, data disks and sizes, with lengths that are right once they are cut.
fn refused_numbers(group: &mut Group, random: &mut Random) {
    let mut shapes = numbers::any_shapes();
    for width in numbers::any_widths() {
        shapes.extend(numbers::any_sizes().into_iter().map(|size| Shape::full(width, size)));
    }
    for shape in shapes {
        let [one, other] = numbers::cut_shapes(shape);
        for cut in [one, other] {
            let mut stripe = Lent::noise(stripe_length(cut), random);
            let mut new = Lent::noise(cut.cell_size, random);
            for cell in [(0, 0), (shape.width, 1), (0, shape.disks), (usize::MAX, usize::MAX)] {
                same_update(group, shape, cell, &mut stripe, &mut new);
            }
        }
    }
    refused_cells(group, random);
}

/// Rows and disks around the last ones, huge ones, and ones that are there once cut.
fn refused_cells(group: &mut Group, random: &mut Random) {
    for p in WIDTHS {
        let shape = Shape::new(p, p - 1, 1);
        let mut stripe = Lent::noise(stripe_length(shape), random);
        let mut new = Lent::noise(1, random);
        for disk in numbers::any_disks(p, p - 1) {
            for row in [0, p - 1, p, (1 << 32) + 1, usize::MAX] {
                same_update(group, shape, (row, disk), &mut stripe, &mut new);
                same_update(group, shape, (disk, row), &mut stripe, &mut new);
            }
        }
    }
}

// Stack.

/// The largest stripe, and one with fewer disks, on a thread with little stack.
fn little_stack(group: &mut Group, random: &mut Random) {
    for (shape, cell) in [
        (Shape::full(31, 4_096), (29, 29)), // the extra cell of D 1
        (Shape::new(29, 14, 4_096), (28, 13)),
    ] {
        let mut stripe = Lent::noise(stripe_length(shape), random);
        let (mut wanted, mut new) = (stripe.clone(), Lent::noise(shape.cell_size, random));
        let (lent, bytes) = (stripe.part(), new.part());
        let got = small_stack::run(|| update_cell(shape, cell, lent, bytes));
        let expected = model::update_cell(shape, cell, wanted.part(), new.part());
        let call = || format!("update_cell({shape:?}, {cell:?}) on 64 KiB of stack");
        group.same(call, expected, got);
        group.same_stripe(call, shape, wanted.whole(), stripe.whole());
    }
}
