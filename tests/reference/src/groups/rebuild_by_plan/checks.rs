//! The rebuild by any plan: accepted ones, some through an extra cell, in several orders and from their cells alone;
//! damaged ones; our plan and the balanced one beside the calls that follow them; refused numbers and lengths.

use super::calls::rebuild_by_plan;
use super::model;
use crate::groups::rebuild_balanced::calls::rebuild_balanced;
use crate::groups::rebuild_one::calls::rebuild_one;
use crate::groups::rebuild_one::checks::cells_off_list;
use crate::harness::answer::Answer;
use crate::harness::model::{
    balanced_steps, bytes_of, cell_place, column_length, disk_place, our_steps, stripe_length, Step,
};
use crate::harness::plans::{accepted_order, damaged, Loss};
use crate::harness::stripes::clean_stripe;
use crate::harness::{numbers, small_stack, Group, Lent, Random, Seen, Setting, Shape};

/// Rounds for each lost disk.
const ROUNDS: usize = 4;

/// Cell sizes that the rounds go through.
const SIZES: [usize; 4] = [1, 7, 16, 65];

pub fn run(setting: &mut Setting, group: &mut Group) {
    let random = &mut setting.random;
    let (mut seen, mut by_extra) = (Seen::new("rebuild_by_plan"), 0);
    for loss in Loss::some() {
        for round in 0..ROUNDS {
            let shape = Shape::new(loss.p, loss.k, SIZES[round % SIZES.len()]);
            let steps = loss.accepted(random);
            by_extra += usize::from(steps.iter().any(|step| loss.choice_of(step).extra));
            accepted(group, random, shape, &loss, &steps);
            for plan in [bytes_of(&steps), damaged(&loss, &steps, random)] {
                noise(group, random, shape, loss.disk, &plan, &mut seen);
            }
        }
        ours(group, random, &loss);
        wrong_lengths(group, random, &loss, &mut seen);
    }
    refused_numbers(group, random, &mut seen);
    seen.each_came(group, &[0, 1, 2, 3, 5, 6, 7, 8, 9, 13]);
    group.same(|| "100 plans through an extra cell".to_string(), true, by_extra >= 100);
    little_stack(group, random);
}

/// Rebuilds, and compares the answer, the column, the stripe, the plan and all memory around.
fn same_rebuild(
    group: &mut Group,
    shape: Shape,
    lost: usize,
    plan: &mut Lent,
    stripe: &mut Lent,
    column: &mut Lent,
) -> Answer {
    let mut wanted = column.clone();
    let (mut sent, mut before) = (plan.clone(), stripe.clone());
    let got = rebuild_by_plan(shape, lost, plan.part(), stripe.part(), column.part());
    let expected = model::rebuild_by_plan(shape, lost, sent.part(), before.part(), wanted.part());
    let lengths = (stripe.part().len(), column.part().len());
    let steps = plan.part().to_vec();
    let call = || format!("rebuild_by_plan({shape:?}, {lost}, {steps:?}), lengths {lengths:?}");
    group.same(call, expected, got);
    group.same_column(|| format!("{}, column", call()), shape, wanted.whole(), column.whole());
    group.same_stripe(|| format!("{}, stripe", call()), shape, before.whole(), stripe.whole());
    group.same_bytes(|| format!("{}, plan", call()), sent.whole(), plan.whole());
    got
}

/// A call on random bytes of the right lengths.
fn noise(
    group: &mut Group,
    random: &mut Random,
    shape: Shape,
    lost: usize,
    plan: &[u8],
    seen: &mut Seen,
) {
    with_lengths(
        group,
        random,
        shape,
        lost,
        plan,
        (stripe_length(shape), column_length(shape)),
        seen,
    );
}

fn with_lengths(
    group: &mut Group,
    random: &mut Random,
    shape: Shape,
    lost: usize,
    plan: &[u8],
    (stripe, column): (usize, usize),
    seen: &mut Seen,
) {
    let mut plan = Lent::of(plan, random);
    let (mut stripe, mut column) = (Lent::noise(stripe, random), Lent::noise(column, random));
    let got = same_rebuild(group, shape, lost, &mut plan, &mut stripe, &mut column);
    seen.note(got);
}

// Accepted plans.

/// The column that a plan gives, by the library.
fn rebuilt(shape: Shape, lost: usize, steps: &[Step], stripe: &[u8]) -> Vec<u8> {
    let mut column = vec![0xEE; column_length(shape)];
    rebuild_by_plan(shape, lost, &bytes_of(steps), stripe, &mut column);
    column
}

/// The disk of a clean stripe comes back; of a dirty one the same column comes in another order of
/// the steps, and with every cell changed that they do not read.
fn accepted(group: &mut Group, random: &mut Random, shape: Shape, loss: &Loss, steps: &[Step]) {
    let lost = loss.disk;
    let say = |what: &str| format!("rebuild_by_plan({shape:?}, {lost}, {steps:?}), {what}");
    let mut clean = clean_stripe(random, shape);
    let cells = clean.part()[disk_place(shape, lost)].to_vec();
    random.fill(&mut clean.part()[disk_place(shape, lost)]);
    group.same_column(|| say("clean"), shape, &cells, &rebuilt(shape, lost, steps, clean.part()));
    let mut dirty = Lent::noise(stripe_length(shape), random);
    let column = rebuilt(shape, lost, steps, dirty.part());
    let choices = steps.iter().map(|step| loss.choice_of(step)).collect();
    let order = accepted_order(choices, random).expect("the order that they came in");
    group.same_column(
        || say("another order"),
        shape,
        &column,
        &rebuilt(shape, lost, &order, dirty.part()),
    );
    for cell in cells_off_list(shape, lost, steps) {
        random.fill(&mut dirty.part()[cell_place(shape, cell)]);
    }
    group.same_column(
        || say("its cells alone"),
        shape,
        &column,
        &rebuilt(shape, lost, steps, dirty.part()),
    );
}

/// By our plan the call writes what the rebuild of one disk writes, and so by the balanced plan.
fn ours(group: &mut Group, random: &mut Random, loss: &Loss) {
    let (shape, lost) = (Shape::new(loss.p, loss.k, 5), loss.disk);
    let mut stripe = Lent::noise(stripe_length(shape), random);
    let mut column = vec![0; column_length(shape)];
    let by = |steps: Vec<Step>, stripe: &[u8]| rebuilt(shape, lost, &steps, stripe);
    rebuild_one(shape, lost, stripe.part(), &mut column);
    let call = || format!("rebuild_by_plan({shape:?}, {lost}, our plan)");
    group.same_column(call, shape, &column, &by(our_steps(loss.p, loss.k, lost), stripe.part()));
    rebuild_balanced(shape, lost, stripe.part(), &mut column);
    let call = || format!("rebuild_by_plan({shape:?}, {lost}, the balanced plan)");
    group.same_column(
        call,
        shape,
        &column,
        &by(balanced_steps(loss.p, loss.k, lost), stripe.part()),
    );
}

// Refused calls.

/// One length wrong at a time, then two; the steps are not looked at then.
fn wrong_lengths(group: &mut Group, random: &mut Random, loss: &Loss, seen: &mut Seen) {
    let (shape, lost) = (Shape::new(loss.p, loss.k, 2), loss.disk);
    let (right, column) = (stripe_length(shape), column_length(shape));
    let steps = loss.accepted(random);
    let plan = damaged(loss, &steps, random);
    for length in [0, plan.len() - 3, plan.len() - 1, plan.len() + 1, 2 * plan.len()] {
        let other: Vec<u8> = plan.iter().copied().cycle().take(length).collect();
        with_lengths(group, random, shape, lost, &other, (right, column), seen);
        with_lengths(group, random, shape, lost, &other, (right - 1, column + 1), seen);
    }
    for length in [0, right - column, right - 1, right + 1] {
        with_lengths(group, random, shape, lost, &plan, (length, column), seen);
    }
    for length in [0, 2, column - 1, column + 1, 2 * column] {
        with_lengths(group, random, shape, lost, &plan, (right, length), seen);
    }
}

fn refused_numbers(group: &mut Group, random: &mut Random, seen: &mut Seen) {
    for shape in numbers::any_shapes() {
        let [cut, _] = numbers::cut_shapes(shape);
        let lengths = (stripe_length(cut), column_length(cut));
        for lost in numbers::few_disks(shape.width, shape.disks) {
            with_lengths(group, random, shape, lost, &vec![0; 3 * cut.width], lengths, seen);
        }
        let wrapped = (numbers::wrapped_length(shape), lengths.1);
        with_lengths(group, random, shape, 0, &vec![0; 3 * cut.width], wrapped, seen);
    }
}

// Stack.

/// The largest stripe on a thread with little stack.
fn little_stack(group: &mut Group, random: &mut Random) {
    let shape = Shape::full(31, 4_096);
    let mut stripe = Lent::noise(stripe_length(shape), random);
    let plan = bytes_of(&balanced_steps(31, 31, 17));
    let (mut column, mut wanted) = (vec![0; column_length(shape)], vec![0; column_length(shape)]);
    let from = stripe.part();
    let got = small_stack::run(|| rebuild_by_plan(shape, 17, &plan, from, &mut column));
    let expected = model::rebuild_by_plan(shape, 17, &plan, stripe.part(), &mut wanted);
    let call = || format!("rebuild_by_plan({shape:?}, 17) on 64 KiB of stack");
    group.same(call, expected, got);
    group.same_column(call, shape, &wanted, &column);
}
