//! Skipped stripes: runs of steps and skips, records with more skipped than passed, records from before skips.

use super::calls::{
    open_run, resume_disks_run, run_progress, skip_stripe, step_run, DisksRun, Progress, Run,
};
use super::model;
use crate::groups::billing::calls::bill_run;
use crate::harness::answer::{Answer, ACCEPTED, NO, YES};
use crate::harness::model::{column_length, stripe_length, WIDTHS};
use crate::harness::{arrays, numbers, Group, Lent, Random, Shape};

/// Random runs and records.
const RUNS: usize = 400;
const ROUNDS: usize = 20_000;

pub fn check(group: &mut Group, random: &mut Random) {
    examples(group, random);
    for _ in 0..RUNS {
        let (p, k) = *random.pick(&arrays::some());
        let shape = Shape::new(p, k, 1 + random.below(3));
        let lost = random.below(k + 2);
        mixed_run(group, random, shape, lost);
    }
    for _ in 0..ROUNDS {
        any_record(group, random);
    }
    for shape in numbers::any_shapes() {
        for lost in numbers::few_disks(shape.width, shape.disks) {
            let mut run = Run { shape, lost, stripes: 7, next: 3, skipped: 4 };
            same_skip(group, &mut run, 3);
            let old = DisksRun { shape, lost, stripes: 7, next: 3 };
            let call = || format!("resume_disks_run({old:?})");
            group.same(call, model::resume_disks_run(old), resume_disks_run(old));
        }
    }
}

/// What document 02 says of skips, without the model.
fn examples(group: &mut Group, random: &mut Random) {
    let mut run = open_run(Shape::full(5, 1), 1, 3).run;
    let (mut stripe, mut column) = (Lent::noise(35, random), Lent::noise(5, random));
    let answers = [
        skip_stripe(&mut run, 0),
        step_run(&mut run, 1, stripe.part(), column.part()),
        skip_stripe(&mut run, 1),
        skip_stripe(&mut run, 2),
        skip_stripe(&mut run, 3),
    ];
    let wanted = [ACCEPTED, ACCEPTED, Answer::of(10), ACCEPTED, Answer::of(10)];
    group.same(|| "skip 0, step 1, skip 1, 2, 3 of three stripes".to_string(), wanted, answers);
    let over = Progress { answer: ACCEPTED, over: YES, cells: 19 };
    group.same(|| "two of three skipped".to_string(), (3, 2, over), read(&run));
    let mut run = open_run(Shape::full(5, 1), 1, 2).run;
    skip_stripe(&mut run, 0);
    skip_stripe(&mut run, 1);
    let over = Progress { answer: ACCEPTED, over: YES, cells: 0 };
    group.same(|| "all skipped: over, no cells".to_string(), (2, 2, over), read(&run));
    let mut run = Run { shape: Shape::full(5, 1), lost: 1, stripes: 4, next: 2, skipped: 3 };
    let refused = Answer::of(10);
    let before = run;
    group.same(|| "skipped above next, progress".to_string(), refused, run_progress(&run).answer);
    let bill = bill_run(&run, [1_001, 0, 0]).answer;
    group.same(|| "skipped above next, bill: 10 before 16".to_string(), refused, bill);
    let step = step_run(&mut run, 2, stripe.part(), column.part());
    group.same(|| "skipped above next, step".to_string(), refused, step);
    let short = step_run(&mut run, 2, &stripe.part()[1..], column.part());
    group.same(|| "skipped above next, step: 5 before 10".to_string(), Answer::of(5), short);
    group.same(|| "skipped above next, skip".to_string(), refused, skip_stripe(&mut run, 2));
    group.same(|| "skipped above next, record".to_string(), before, run);
}

/// Next, skipped and the progress.
fn read(run: &Run) -> (u32, u32, Progress) {
    (run.next, run.skipped, run_progress(run))
}

/// A skip compared with the model: answer, record, and what is then read.
fn same_skip(group: &mut Group, run: &mut Run, which: u64) {
    let (before, mut wanted) = (*run, *run);
    let expected = model::skip_stripe(&mut wanted, which);
    let got = skip_stripe(run, which);
    let call = || format!("skip_stripe({before:?}, {which})");
    group.same(call, expected, got);
    group.same(|| format!("{}, record", call()), wanted, *run);
    let progress = model::run_progress(run);
    group.same(|| format!("{}, progress", call()), progress, run_progress(run));
}

/// Steps and skips, also of other stripes than the next; the accepted ones are counted here.
fn mixed_run(group: &mut Group, random: &mut Random, shape: Shape, lost: usize) {
    let stripes = random.below(9) as u32;
    let mut run = open_run(shape, lost, stripes).run;
    let reads = run_reads(&run);
    let (mut steps, mut skips) = (0, 0);
    while run.next < stripes {
        let ahead = u64::from(random.once_in(4));
        let which = u64::from(run.next) + ahead;
        if random.once_in(2) {
            same_skip(group, &mut run, which);
            skips += 1 - ahead as u32;
        } else {
            let mut stripe = Lent::noise(stripe_length(shape), random);
            let mut column = Lent::noise(column_length(shape), random);
            step_run(&mut run, which, stripe.part(), column.part());
            steps += 1 - ahead as u32;
        }
        let call = || format!("{steps} steps, {skips} skips of {shape:?}, {lost}");
        let over = if steps + skips == stripes { YES } else { NO };
        let progress = Progress { answer: ACCEPTED, over, cells: u64::from(steps) * reads };
        group.same(call, (steps + skips, skips, progress), read(&run));
    }
}

/// The cells that a stripe of the run takes, by the call itself.
fn run_reads(run: &Run) -> u64 {
    run_progress(&Run { stripes: 1, next: 1, skipped: 0, ..*run }).cells
}

/// A record that other software filled in, and a skip.
fn any_record(group: &mut Group, random: &mut Random) {
    let p = *random.pick(&WIDTHS);
    let shape = Shape::new(p, 2 + random.below(p - 1), 1 + random.below(4_096));
    let lost = random.below(shape.disks + 2);
    let near = |random: &mut Random, n: u32| n.wrapping_add(random.below(3) as u32).wrapping_sub(1);
    let stripes = if random.once_in(3) { u32::MAX } else { random.below(6) as u32 };
    let next = near(random, stripes);
    let skipped = if random.once_in(2) { near(random, next) } else { random.next() as u32 };
    let mut run = Run { shape, lost, stripes, next, skipped };
    let others = [u64::from(next), u64::from(next) + (1 << 32), u64::MAX, random.next()];
    let which = if random.once_in(3) { *random.pick(&others) } else { u64::from(next) };
    same_skip(group, &mut run, which);
}
