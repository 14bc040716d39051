//! Rebuild runs: whole runs with refused steps among them, records with any fields, old records taken over, refused
//! calls.

use super::calls::{
    open_run, resume_full_run, run_progress, step_run, FullRun, Opened, Progress, Run,
};
use super::{model, skips};
use crate::harness::answer::{Answer, ACCEPTED, NO, YES};
use crate::harness::model::{column_length, disk_place, stripe_length, WIDTHS};
use crate::harness::stripes::clean_stripe;
use crate::harness::{arrays, numbers, small_stack, Group, Lent, Random, Setting, Shape};

/// Random records and steps, and old records among them.
const ROUNDS: usize = 20_000;
const OLD_ROUNDS: usize = 4_000;

pub fn run(setting: &mut Setting, group: &mut Group) {
    let random = &mut setting.random;
    examples(group, random);
    old_examples(group);
    for (p, k) in arrays::some() {
        let stripes = if k == p { 5 } else { 2 };
        for lost in 0..k + 2 {
            let s = 1 + random.below(9);
            whole_run(group, random, Shape::new(p, k, s), lost, stripes);
        }
        whole_run(group, random, Shape::new(p, k, 1), 0, 0);
    }
    for p in WIDTHS {
        let lost = random.below(p + 2);
        whole_run(group, random, Shape::full(p, 4_096), lost, 2);
    }
    refused_openings(group);
    refused_records(group, random);
    last_stripes(group, random);
    for _ in 0..ROUNDS {
        any_record(group, random);
    }
    for _ in 0..OLD_ROUNDS {
        old_record(group, random);
    }
    skips::check(group, random);
    little_stack(group, random);
}

/// A step compared with the model: answer, record, column, stripe and all memory around.
fn same_step(group: &mut Group, run: &mut Run, which: u64, stripe: &mut Lent, column: &mut Lent) {
    let (before, mut wanted_run) = (*run, *run);
    let (mut wanted_stripe, mut wanted_column) = (stripe.clone(), column.clone());
    let got = step_run(run, which, stripe.part(), column.part());
    let (from, to) = (wanted_stripe.part(), wanted_column.part());
    let expected = model::step_run(&mut wanted_run, which, from, to);
    let call = || format!("step_run({before:?}, {which})");
    group.same(call, expected, got);
    group.same(|| format!("{}, record", call()), wanted_run, *run);
    group.same_column(
        || format!("{}, column", call()),
        run.shape,
        wanted_column.whole(),
        column.whole(),
    );
    group.same_stripe(
        || format!("{}, stripe", call()),
        run.shape,
        wanted_stripe.whole(),
        stripe.whole(),
    );
    same_progress(group, run);
}

fn same_progress(group: &mut Group, run: &Run) {
    let before = *run;
    let call = || format!("run_progress({before:?})");
    group.same(call, model::run_progress(run), run_progress(run));
    group.same(|| format!("{}, record", call()), before, *run);
}

fn same_opening(group: &mut Group, shape: Shape, lost: usize, stripes: u32) {
    let expected = model::open_run(shape, lost, stripes);
    let got = open_run(shape, lost, stripes);
    group.same(|| format!("open_run({shape:?}, {lost}, {stripes})"), expected, got);
}

// Examples.

/// What documents 01 and 02 say of runs, without the model.
fn examples(group: &mut Group, random: &mut Random) {
    let shape = Shape::full(5, 1);
    let Opened { answer, run } = open_run(shape, 1, 0);
    group.same(|| "open_run(5, 5, 1, disk 1), no stripes".to_string(), ACCEPTED, answer);
    let over = Progress { answer: ACCEPTED, over: YES, cells: 0 };
    group.same(|| "no stripes: over when opened".to_string(), over, run_progress(&run));
    let mut run = Run { shape, lost: 1, stripes: 4, next: 4, skipped: 0 };
    let over = Progress { answer: ACCEPTED, over: YES, cells: 4 * 19 };
    group.same(|| "N = 4, next 4: can be read".to_string(), over, run_progress(&run));
    let part = Run { shape: Shape::new(7, 5, 1), lost: 5, stripes: 4, next: 3, skipped: 0 };
    let open = Progress { answer: ACCEPTED, over: NO, cells: 3 * 35 };
    group.same(|| "lost P of five disks in seven bays".to_string(), open, run_progress(&part));
    let mut stripe = Lent::noise(35, random);
    let mut column = Lent::noise(5, random);
    let got = step_run(&mut run, 4, stripe.part(), column.part());
    group.same(|| "N = 4, next 4: a step".to_string(), Answer::of(10), got);
    let got = step_run(&mut run, 4, &stripe.part()[1..], column.part());
    group.same(|| "5 before 10".to_string(), Answer::of(5), got);
}

/// Old records that become new ones, without the model; what the calls refuse is taken over too.
fn old_examples(group: &mut Group) {
    let given = [
        ((5, 1, 1), (4, 4), Progress { answer: ACCEPTED, over: YES, cells: 4 * 19 }),
        ((5, 1, 6), (4, 3), Progress { answer: ACCEPTED, over: NO, cells: 3 * 25 }),
        ((9, 1, 1), (4, 4), Progress { answer: Answer::of(1), ..Progress::default() }),
        ((1, 0, 9), (0, 7), Progress { answer: Answer::of(1), ..Progress::default() }),
        ((5, 0, 1), (4, 4), Progress { answer: Answer::of(2), ..Progress::default() }),
        ((5, 1, 7), (4, 4), Progress { answer: Answer::of(3), ..Progress::default() }),
    ];
    for ((width, size, disk), (stripes, next), expected) in given {
        let run = resume_full_run(FullRun { width, size, disk, stripes, next });
        let shape = Shape { width, disks: width, cell_size: size };
        let call = || format!("resume_full_run({width}, {size}, {disk}, {stripes}, {next})");
        group.same(call, Run { shape, lost: disk, stripes, next, skipped: 0 }, run);
        group.same(|| format!("{}, progress", call()), expected, run_progress(&run));
    }
}

// Accepted runs.

/// From opening to the end, each stripe another one, refused steps before each accepted one and after the last.
fn whole_run(group: &mut Group, random: &mut Random, shape: Shape, lost: usize, stripes: u32) {
    same_opening(group, shape, lost, stripes);
    let mut run = open_run(shape, lost, stripes).run;
    for next in 0..stripes {
        refused_steps(group, random, &mut run);
        let mut stripe = clean_stripe(random, shape);
        let place = disk_place(shape, lost);
        let cells = stripe.part()[place.clone()].to_vec();
        random.fill(&mut stripe.part()[place]);
        let mut column = Lent::noise(column_length(shape), random);
        group.same(|| format!("run_progress({run:?}).over"), NO, run_progress(&run).over);
        same_step(group, &mut run, next.into(), &mut stripe, &mut column);
        group.same_column(
            || format!("step {next} of {shape:?}, {lost}"),
            shape,
            &cells,
            column.part(),
        );
    }
    group.same(|| format!("run_progress({run:?}).over"), YES, run_progress(&run).over);
    refused_steps(group, random, &mut run);
}

/// Steps that a record refuses: other stripe numbers, other lengths.
fn refused_steps(group: &mut Group, random: &mut Random, run: &mut Run) {
    let (right, column) = (stripe_length(run.shape), column_length(run.shape));
    let next = u64::from(run.next);
    let others = [next.wrapping_sub(1), next + 1, next + (1 << 32), next + (1 << 63), u64::MAX];
    for which in others {
        with_lengths(group, random, run, which, (right, column));
    }
    for lengths in [(right - 1, column), (right + 1, column), (right, column - 1), (0, 0)] {
        with_lengths(group, random, run, next, lengths);
        with_lengths(group, random, run, next + 1, lengths);
    }
}

fn with_lengths(
    group: &mut Group,
    random: &mut Random,
    run: &mut Run,
    which: u64,
    (stripe, column): (usize, usize),
) {
    let mut stripe = Lent::noise(stripe, random);
    let mut column = Lent::noise(column, random);
    same_step(group, run, which, &mut stripe, &mut column);
}

/// The last stripes of the longest run.
fn last_stripes(group: &mut Group, random: &mut Random) {
    for next in [u32::MAX - 2, u32::MAX - 1, u32::MAX] {
        for (p, k) in arrays::some() {
            let shape = Shape::new(p, k, 1);
            let mut run = Run { shape, lost: 1, stripes: u32::MAX, next, skipped: 0 };
            with_lengths(group, random, &mut run, next.into(), (stripe_length(shape), p));
        }
    }
}

// Refused calls, and records of any kind.

/// Openings with every mix of widths, sizes and disks.
fn refused_openings(group: &mut Group) {
    for width in numbers::any_widths() {
        for size in numbers::any_sizes() {
            for lost in numbers::any_disks(width, width) {
                refused_opening(group, Shape::full(width, size), lost);
            }
        }
    }
}

/// Openings and records with every mix of widths, data disks, some sizes and some disks, and a step on each
/// record, which is at its end, with lengths that are right once they are cut.
fn refused_records(group: &mut Group, random: &mut Random) {
    for shape in numbers::any_shapes() {
        let [cut, _] = numbers::cut_shapes(shape);
        for lost in numbers::few_disks(shape.width, shape.disks) {
            refused_opening(group, shape, lost);
            let mut run = Run { shape, lost, stripes: 7, next: 7, skipped: 0 };
            with_lengths(group, random, &mut run, 7, (stripe_length(cut), column_length(cut)));
        }
    }
}

fn refused_opening(group: &mut Group, shape: Shape, lost: usize) {
    same_opening(group, shape, lost, 7);
    same_progress(group, &Run { shape, lost, stripes: 7, next: 7, skipped: 0 });
}

/// A record that other software filled in, mostly near what is accepted, and a step on it.
fn any_record(group: &mut Group, random: &mut Random) {
    let p = *random.pick(&WIDTHS);
    let k = if random.once_in(2) { p } else { 2 + random.below(p - 1) };
    let [odd_width, odd_disks, odd_size, odd_lost] = [0, 1, 2, 3].map(|_| random.once_in(8));
    let width = if odd_width { *random.pick(&numbers::any_widths()) } else { p };
    let disks = if odd_disks { *random.pick(&numbers::any_data_disks(p)) } else { k };
    let size = if odd_size { *random.pick(&numbers::any_sizes()) } else { 1 + random.below(4) };
    let lost = if odd_lost { random.below(70) } else { random.below(k + 2) };
    let (stripes, next) = random_place(random);
    let mut run = Run { shape: Shape::new(width, disks, size), lost, stripes, next, skipped: 0 };
    any_step(group, random, &mut run, Shape::new(p, k, size.min(4)));
}

/// Stripes and next, few of both, next sometimes far off.
fn random_place(random: &mut Random) -> (u32, u32) {
    let next = if random.once_in(8) { random.next() as u32 } else { random.below(6) as u32 };
    (random.below(6) as u32, next)
}

/// A step with lengths that are right for the shape given, mostly.
fn any_step(group: &mut Group, random: &mut Random, run: &mut Run, shape: Shape) {
    let which = if random.once_in(3) { random.below(6) as u64 } else { run.next.into() };
    let length = stripe_length(shape) + usize::from(random.once_in(8));
    let column = column_length(shape) + usize::from(random.once_in(8));
    with_lengths(group, random, run, which, (length, column));
}

/// A record of document 01, mostly accepted, taken over; then its progress, a step on it and its progress again.
fn old_record(group: &mut Group, random: &mut Random) {
    let p = *random.pick(&WIDTHS);
    let [odd_width, odd_size, odd_disk] = [0, 1, 2].map(|_| random.once_in(8));
    let width = if odd_width { *random.pick(&numbers::any_widths()) } else { p };
    let size = if odd_size { *random.pick(&numbers::any_sizes()) } else { 1 + random.below(4) };
    let disk = if odd_disk { random.next() as usize } else { random.below(p + 2) };
    let (stripes, next) = random_place(random);
    let old = FullRun { width, size, disk, stripes, next };
    let mut run = resume_full_run(old);
    group.same(|| format!("resume_full_run({old:?})"), model::resume_full_run(old), run);
    same_progress(group, &run);
    any_step(group, random, &mut run, Shape::full(p, size.min(4)));
}

// Stack.

/// The largest stripe, and one with fewer disks, on a thread with little stack.
fn little_stack(group: &mut Group, random: &mut Random) {
    for shape in [Shape::full(31, 4_096), Shape::new(29, 14, 4_096)] {
        let mut stripe = Lent::noise(stripe_length(shape), random);
        let mut column = Lent::noise(column_length(shape), random);
        let mut wanted = column.clone();
        let mut run = open_run(shape, 11, 1).run;
        let mut same = model::open_run(shape, 11, 1).run;
        let (from, to) = (stripe.part(), column.part());
        let got = small_stack::run(|| step_run(&mut run, 0, from, to));
        let expected = model::step_run(&mut same, 0, stripe.part(), wanted.part());
        let call = || format!("step_run({shape:?}) on 64 KiB of stack");
        group.same(call, (expected, same), (got, run));
        group.same_column(|| format!("{}, column", call()), shape, wanted.whole(), column.whole());
    }
}
