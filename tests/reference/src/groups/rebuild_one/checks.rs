//! The rebuild of one lost disk: clean and dirty stripes, the full array's stripes, and refused calls. The rebuild by
//! the balanced plan is compared by the same checks.

use super::calls::rebuild_one;
use super::model;
use crate::groups::read_list::model::mark;
use crate::harness::answer::{Answer, ACCEPTED};
use crate::harness::model::{
    cell_place, column_length, disk_place, full_disk, full_shape, our_steps, stripe_length,
    widened, Cell, Step,
};
use crate::harness::stripes::{clean_stripe, shapes, EXAMPLE, PART_EXAMPLE};
use crate::harness::{arrays, numbers, small_stack, Group, Lent, Random, Setting, Shape};

/// A call that rebuilds a disk of a stripe into a column, or its model.
type IntoColumn = fn(Shape, usize, &[u8], &mut [u8]) -> Answer;

/// Such a call, its model, and the steps of the plan for width, data disks and lost disk that it follows.
pub struct Rebuild {
    pub name: &'static str,
    pub call: IntoColumn,
    pub model: IntoColumn,
    pub steps: fn(usize, usize, usize) -> Vec<Step>,
}

const REBUILD_ONE: Rebuild =
    Rebuild { name: "rebuild_one", call: rebuild_one, model: model::rebuild_one, steps: our_steps };

/// The comparisons of one such call.
struct Checks<'a> {
    rebuild: &'a Rebuild,
    group: &'a mut Group,
    random: &'a mut Random,
}

pub fn run(setting: &mut Setting, group: &mut Group) {
    check(&REBUILD_ONE, setting, group);
}

/// All comparisons of a call that rebuilds one disk by a plan of its own.
pub fn check(rebuild: &Rebuild, setting: &mut Setting, group: &mut Group) {
    let on = &mut Checks { rebuild, group, random: &mut setting.random };
    example(on, Shape::full(3, 1), &EXAMPLE);
    example(on, Shape::new(3, 2, 1), &PART_EXAMPLE);
    for shape in shapes() {
        clean_losses(on, shape);
        dirty_losses(on, shape);
        wrong_lengths(on, shape);
    }
    for (p, k) in arrays::every() {
        beside_full(on, Shape::new(p, k, 2));
    }
    for (p, k) in arrays::some().into_iter().filter(|(p, k)| k == p || *p <= 7) {
        wrong_sizes(on, p, k);
    }
    refused_examples(on);
    several_faults(on);
    refused_numbers(on);
    little_stack(on);
}

/// Rebuilds, and compares the answer, the column, the stripe and all memory around.
fn same_rebuild(on: &mut Checks, shape: Shape, lost: usize, stripe: &mut Lent, column: &mut Lent) {
    let name = on.rebuild.name;
    let mut wanted = column.clone();
    let mut before = stripe.clone();
    let got = (on.rebuild.call)(shape, lost, stripe.part(), column.part());
    let expected = (on.rebuild.model)(shape, lost, before.part(), wanted.part());
    let lengths = (stripe.part().len(), column.part().len());
    let call = || format!("{name}({shape:?}, {lost}), stripe and column of {lengths:?}");
    on.group.same(call, expected, got);
    on.group.same_column(|| format!("{}, column", call()), shape, wanted.whole(), column.whole());
    on.group.same_stripe(|| format!("{}, stripe", call()), shape, before.whole(), stripe.whole());
}

// Accepted calls.

/// Each disk of a stripe of size 1 whose P and Q are known; the lost disk's bytes are not read.
fn example(on: &mut Checks, shape: Shape, known: &[u8]) {
    let name = on.rebuild.name;
    for lost in shape.all_disks() {
        let place = disk_place(shape, lost);
        let mut stripe = Lent::of(known, on.random);
        on.random.fill(&mut stripe.part()[place.clone()]);
        let mut column = Lent::noise(3, on.random);
        same_rebuild(on, shape, lost, &mut stripe, &mut column);
        let call = || format!("{name}({shape:?}, {lost}, example)");
        on.group.same_column(call, shape, &known[place], column.part());
    }
}

/// Each disk of a clean stripe is lost in turn and comes back.
fn clean_losses(on: &mut Checks, shape: Shape) {
    let name = on.rebuild.name;
    let mut stripe = clean_stripe(on.random, shape);
    for lost in shape.all_disks() {
        let place = disk_place(shape, lost);
        let cells = stripe.part()[place.clone()].to_vec();
        on.random.fill(&mut stripe.part()[place.clone()]);
        let mut column = Lent::noise(column_length(shape), on.random);
        same_rebuild(on, shape, lost, &mut stripe, &mut column);
        let call = || format!("{name}({shape:?}, {lost}, clean)");
        on.group.same_column(call, shape, &cells, column.part());
        stripe.part()[place].copy_from_slice(&cells);
    }
}

/// Dirty stripes, and the same with every cell off the read list changed.
fn dirty_losses(on: &mut Checks, shape: Shape) {
    let name = on.rebuild.name;
    let mut stripe = Lent::noise(stripe_length(shape), on.random);
    for lost in shape.all_disks() {
        let mut first = Lent::noise(column_length(shape), on.random);
        same_rebuild(on, shape, lost, &mut stripe, &mut first);
        let steps = (on.rebuild.steps)(shape.width, shape.disks, lost);
        for cell in cells_off_list(shape, lost, &steps) {
            on.random.fill(&mut stripe.part()[cell_place(shape, cell)]);
        }
        let mut second = Lent::noise(column_length(shape), on.random);
        same_rebuild(on, shape, lost, &mut stripe, &mut second);
        let call = || format!("{name}({shape:?}, {lost}, changed off the read list)");
        on.group.same_column(call, shape, first.part(), second.part());
    }
}

/// The cells that the steps for a lost disk do not read; the lost ones are among them.
pub fn cells_off_list(shape: Shape, lost: usize, steps: &[Step]) -> Vec<Cell> {
    let Shape { width: p, disks: k, .. } = shape;
    let mut list = vec![0; p * (k + 2)];
    mark((p, k, lost), steps, &mut list);
    let off = (0..list.len()).filter(|place| list[*place] == 0);
    off.map(|place| (place % p, place / p)).collect()
}

/// Absent disks count as zero: from a dirty stripe a disk comes back as it does in the full array
/// from that stripe with zeros in their place.
fn beside_full(on: &mut Checks, shape: Shape) {
    let name = on.rebuild.name;
    let Shape { width: p, disks: k, .. } = shape;
    let mut stripe = Lent::noise(stripe_length(shape), on.random);
    let wide = widened(shape, stripe.part());
    for lost in shape.all_disks() {
        let mut column = Lent::noise(column_length(shape), on.random);
        same_rebuild(on, shape, lost, &mut stripe, &mut column);
        let mut expected = vec![0; column_length(shape)];
        let lost_there = full_disk(p, k, lost);
        let got = (on.rebuild.call)(full_shape(shape), lost_there, &wide, &mut expected);
        let call = || format!("{name}({shape:?}, {lost}), beside the full array's");
        on.group.same(call, ACCEPTED, got);
        on.group.same_column(call, shape, &expected, column.part());
    }
}

// Refused calls.

/// A call on random bytes of these lengths, mostly refused.
fn with_lengths(on: &mut Checks, shape: Shape, lost: usize, (stripe, column): (usize, usize)) {
    let mut stripe = Lent::noise(stripe, on.random);
    let mut column = Lent::noise(column, on.random);
    same_rebuild(on, shape, lost, &mut stripe, &mut column);
}

/// One length wrong at a time, then both.
fn wrong_lengths(on: &mut Checks, shape: Shape) {
    let (right, column) = (stripe_length(shape), column_length(shape));
    let (s, full) = (shape.cell_size, stripe_length(full_shape(shape)));
    let lost = on.random.below(shape.disks + 2);
    let near = [right - 1, right + 1, right + s, right + column, 2 * right];
    let stripes = [0, 1, column, shape.data_length(), full].into_iter().chain(near);
    let near = [column - 1, column + 1, column + s, 2 * column];
    let columns = [0, 1, s, shape.width, shape.disks * s, right].into_iter().chain(near);
    for stripe in stripes.filter(|length| *length != right) {
        with_lengths(on, shape, lost, (stripe, column));
        with_lengths(on, shape, lost, (stripe, column + 1));
    }
    for other in columns.filter(|length| *length != column) {
        with_lengths(on, shape, lost, (right, other));
    }
}

/// Sizes just out of range, with the lengths that would be right.
fn wrong_sizes(on: &mut Checks, p: usize, k: usize) {
    for size in [0, 4_097] {
        let shape = Shape::new(p, k, size);
        for lost in [on.random.below(k + 2), k + 2] {
            let lengths = (stripe_length(shape), column_length(shape));
            with_lengths(on, shape, lost, lengths);
        }
    }
}

/// The table's examples that this call can give, 13 with them, and orders of two faults.
fn refused_examples(on: &mut Checks) {
    let name = on.rebuild.name;
    let examples = [
        ((9, 9, 1), 0, (99, 9), 1),
        ((37, 37, 1), 0, (37 * 39, 37), 1),
        ((5, 1, 1), 0, (15, 5), 13),
        ((5, 6, 1), 0, (40, 5), 13),
        ((5, 5, 0), 0, (0, 0), 2),
        ((5, 5, 4_097), 0, (35 * 4_097, 5 * 4_097), 2),
        ((5, 5, 1), 7, (35, 5), 3),
        ((5, 3, 1), 5, (25, 5), 3),
        ((3, 3, 1), 0, (14, 3), 5),
        ((3, 3, 1), 0, (15, 2), 5),
        ((3, 2, 1), 0, (15, 3), 5),
        ((9, 1, 0), 99, (0, 0), 1),
        ((5, 1, 0), 99, (0, 0), 13),
        ((5, 3, 0), 7, (0, 0), 2),
        ((5, 3, 1), 5, (34, 4), 3),
        ((3, 3, 1), 4, (15, 3), 0),
        ((3, 2, 1), 3, (12, 3), 0),
    ];
    for ((width, disks, size), lost, (stripe, column), refusal) in examples {
        let shape = Shape::new(width, disks, size);
        let got = (on.rebuild.call)(shape, lost, &vec![1; stripe], &mut vec![2; column]);
        let lengths = (stripe, column);
        let call = || format!("{name}({shape:?}, {lost}), lengths {lengths:?}");
        on.group.same(call, Answer::of(refusal), got);
        with_lengths(on, shape, lost, lengths);
    }
}

/// Every mix of good and bad numbers and lengths.
fn several_faults(on: &mut Checks) {
    for width in [3, 5, 31, 0, 9, 37, 261] {
        for disks in [2, width, 1, width + 1] {
            for size in [1, 3, 0, 4_097] {
                for lost in [0, disks, disks + 1, disks + 2, usize::MAX] {
                    faulty_lengths(on, Shape::new(width, disks, size), lost);
                }
            }
        }
    }
}

fn faulty_lengths(on: &mut Checks, shape: Shape, lost: usize) {
    let [cut, _] = numbers::cut_shapes(shape);
    let around = |right: usize| [right, right.saturating_sub(1), right + 1, 0];
    for stripe in around(stripe_length(cut)) {
        for column in around(column_length(cut)) {
            with_lengths(on, shape, lost, (stripe, column));
        }
    }
}

/// Every mix of widths, sizes and disks, and of widths, data disks and some disks, with lengths that are right once
/// they are cut.
fn refused_numbers(on: &mut Checks) {
    for width in numbers::any_widths() {
        for size in numbers::any_sizes() {
            refused_disks(on, Shape::full(width, size), &numbers::any_disks(width, width));
        }
    }
    for shape in numbers::any_shapes() {
        let lost = numbers::few_disks(shape.width, shape.disks);
        refused_disks(on, shape, &lost);
        let mut stripe = Lent::noise(numbers::wrapped_length(shape), on.random);
        let mut column = Lent::noise(column_length(numbers::cut_shapes(shape)[0]), on.random);
        same_rebuild(on, shape, lost[0], &mut stripe, &mut column);
    }
}

fn refused_disks(on: &mut Checks, shape: Shape, lost: &[usize]) {
    for cut in numbers::cut_shapes(shape) {
        let mut stripe = Lent::noise(stripe_length(cut), on.random);
        let mut column = Lent::noise(column_length(cut), on.random);
        for &lost in lost {
            same_rebuild(on, shape, lost, &mut stripe, &mut column);
        }
    }
}

// Stack.

/// The largest stripe, and one with fewer disks, on a thread with little stack.
fn little_stack(on: &mut Checks) {
    for shape in [Shape::full(31, 4_096), Shape::new(29, 14, 4_096)] {
        on_little_stack(on, shape);
    }
}

fn on_little_stack(on: &mut Checks, shape: Shape) {
    let name = on.rebuild.name;
    let k = shape.disks;
    let mut stripe = Lent::noise(stripe_length(shape), on.random);
    let mut before = stripe.clone();
    for lost in [0, k / 2, k, k + 1] {
        let mut column = Lent::noise(column_length(shape), on.random);
        let mut wanted = column.clone();
        let (from, to) = (stripe.part(), column.part());
        let call = on.rebuild.call;
        let got = small_stack::run(|| call(shape, lost, from, to));
        let expected = (on.rebuild.model)(shape, lost, before.part(), wanted.part());
        let call = || format!("{name}({shape:?}, {lost}) on 64 KiB of stack");
        on.group.same(call, expected, got);
        on.group.same_column(
            || format!("{}, column", call()),
            shape,
            wanted.whole(),
            column.whole(),
        );
        on.group.same_stripe(
            || format!("{}, stripe", call()),
            shape,
            before.whole(),
            stripe.whole(),
        );
    }
}
