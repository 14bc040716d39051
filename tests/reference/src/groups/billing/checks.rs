//! Bills: the bands' boundaries, exact halves of a cent, the largest bills, refusals, bills of runs and of old runs taken
//! over.

use super::calls::{bill_bytes, bill_run, Bill};
use super::model;
use crate::groups::rebuild_runs::calls::{resume_full_run, FullRun, Run};
use crate::groups::rebuild_runs::model::resume_full_run as model_resume;
use crate::harness::answer::{Answer, ACCEPTED};
use crate::harness::model::WIDTHS;
use crate::harness::{arrays, numbers, Group, Random, Setting, Shape};

const GIB: u64 = 1 << 30;
const MOST: u64 = 1 << 54;

/// Random bills.
const ROUNDS: usize = 200_000;

pub fn run(setting: &mut Setting, group: &mut Group) {
    let random = &mut setting.random;
    examples(group);
    boundaries(group);
    halves(group);
    for _ in 0..ROUNDS {
        random_bill(group, random);
    }
    for _ in 0..ROUNDS / 10 {
        random_run(group, random);
    }
    longest_runs(group);
    refused_runs(group);
    old_runs(group, random);
}

fn same_bill(group: &mut Group, bytes: u64, rates: [u64; 3]) {
    let expected = model::bill_bytes(bytes, rates);
    let got = bill_bytes(bytes, rates);
    group.same(|| format!("bill_bytes({bytes}, {rates:?})"), expected, got);
    if got.answer == ACCEPTED {
        let whole: u64 = got.first + got.second + got.third;
        group.same(|| format!("bill_bytes({bytes}, {rates:?}), whole"), bytes, whole);
    }
}

fn same_run(group: &mut Group, run: &Run, rates: [u64; 3]) {
    let expected = model::bill_run(run, rates);
    group.same(|| format!("bill_run({run:?}, {rates:?})"), expected, bill_run(run, rates));
}

/// What document 02 says, without the model.
fn examples(group: &mut Group) {
    let given = [
        (0, [7, 7, 7], Bill::of([0, 0, 0], 0)),
        (1, [1, 0, 0], Bill::of([1, 0, 0], 0)),
        (GIB / 2, [1, 9, 9], Bill::of([GIB / 2, 0, 0], 0)),
        (GIB / 2, [3, 9, 9], Bill::of([GIB / 2, 0, 0], 2)),
        (GIB / 2, [5, 9, 9], Bill::of([GIB / 2, 0, 0], 2)),
        (GIB / 2 + 1, [1, 9, 9], Bill::of([GIB / 2 + 1, 0, 0], 1)),
        (GIB / 2 - 1, [3, 9, 9], Bill::of([GIB / 2 - 1, 0, 0], 1)),
        (GIB, [5, 9, 9], Bill::of([GIB, 0, 0], 5)),
        (64 * GIB + 1, [1, 1, 0], Bill::of([64 * GIB, 1, 0], 64)),
        (64 * GIB + GIB / 2, [1, 1, 0], Bill::of([64 * GIB, GIB / 2, 0], 64)),
        (64 * GIB + GIB / 2, [1, 3, 0], Bill::of([64 * GIB, GIB / 2, 0], 66)),
        (1_025 * GIB, [1, 2, 3], Bill::of([64 * GIB, 960 * GIB, GIB], 64 + 1_920 + 3)),
    ];
    for (bytes, rates, expected) in given {
        let got = bill_bytes(bytes, rates);
        group.same(|| format!("bill_bytes({bytes}, {rates:?}), example"), expected, got);
    }
    let refused = |refusal| Bill { answer: Answer::of(refusal), ..Bill::default() };
    for (bytes, rates, refusal) in [
        (0, [1_001, 0, 0], 16),
        (0, [0, 1_001, 0], 16),
        (0, [0, 0, 1_001], 16),
        (MOST + 1, [0, 0, 0], 17),
        (MOST + 1, [0, 0, 1_001], 16),
    ] {
        let got = bill_bytes(bytes, rates);
        group.same(|| format!("bill_bytes({bytes}, {rates:?})"), refused(refusal), got);
    }
}

/// Bytes around every bound, with the least and the greatest rates, and rates that are accepted once cut.
fn boundaries(group: &mut Group) {
    let rates = [0, 1, 3, 999, 1_000, 1_001, (1 << 32) + 1, u64::MAX];
    for bound in [1, GIB / 2, GIB, 64 * GIB, 1_024 * GIB, MOST, 1 << 63, u64::MAX - 1] {
        for bytes in [bound - 1, bound, bound + 1] {
            for first in rates {
                for second in rates {
                    for third in rates {
                        same_bill(group, bytes, [first, second, third]);
                    }
                }
            }
        }
    }
}

/// Exact halves of a cent at every rate, from the last of one, two and three bands, and a byte on either side.
fn halves(group: &mut Group) {
    for rate in 1..=1_000_u64 {
        let half = (GIB / 2) >> rate.trailing_zeros();
        for bytes in [half, 3 * half, 5 * half, 7 * half] {
            for near in [bytes - 1, bytes, bytes + 1] {
                same_bill(group, near, [rate, 1_000, 999]);
                same_bill(group, 64 * GIB + near, [7, rate, 999]);
                same_bill(group, 1_024 * GIB + near, [7, 13, rate]);
            }
        }
    }
}

fn random_bill(group: &mut Group, random: &mut Random) {
    let bytes = random.next() >> random.below(64);
    same_bill(group, bytes, random_rates(random));
}

fn random_run(group: &mut Group, random: &mut Random) {
    let p = *random.pick(&WIDTHS);
    let k = if random.once_in(2) { p } else { 1 + random.below(p + 1) };
    let width = if random.once_in(6) { random.below(40) } else { p };
    let next = (random.next() >> (32 + random.below(32))) as u32;
    let run = Run {
        shape: Shape::new(width, k, random.below(4_098)),
        lost: random.below(k + 3),
        stripes: random.next() as u32,
        next,
        skipped: random_skipped(random, next),
    };
    same_run(group, &run, random_rates(random));
}

/// None skipped, all, some, or any number, which may be above those past.
fn random_skipped(random: &mut Random, next: u32) -> u32 {
    match random.below(4) {
        0 => 0,
        1 => next,
        2 => (random.next() % (u64::from(next) + 1)) as u32,
        _ => (random.next() >> (32 + random.below(32))) as u32,
    }
}

fn random_rates(random: &mut Random) -> [u64; 3] {
    [0, 1, 2].map(|_| random.below(1_003) as u64)
}

/// The largest bills that a run can have.
fn longest_runs(group: &mut Group) {
    for (p, k) in arrays::every() {
        for lost in 0..k + 2 {
            let shape = Shape::new(p, k, 4_096);
            for skipped in [0, 1, u32::MAX - 1, u32::MAX] {
                let run = Run { shape, lost, stripes: u32::MAX, next: u32::MAX, skipped };
                same_run(group, &run, [1_000, 1_000, 1_000]);
            }
        }
    }
}

/// A run's own refusals come before those of the rates, that of too many skipped the last of them.
fn refused_runs(group: &mut Group) {
    for shape in numbers::any_shapes() {
        for lost in numbers::few_disks(shape.width, shape.disks) {
            for (skipped, rate) in [(0, 1_000), (0, 1_001), (7, 1_000), (8, 1_000), (8, 1_001)] {
                let run = Run { shape, lost, stripes: 7, next: 7, skipped };
                same_run(group, &run, [0, rate, 0]);
            }
        }
    }
}

/// The bill of a run that was open before records had data disks.
fn old_runs(group: &mut Group, random: &mut Random) {
    let old = FullRun { width: 5, size: 4_096, disk: 1, stripes: 9_000, next: 4_000 };
    let bytes = 4_000 * 19 * 4_096;
    let bill = Bill::of([bytes, 0, 0], 3);
    let got = bill_run(&resume_full_run(old), [10, 1, 1]);
    group.same(|| format!("bill_run(resume_full_run({old:?}))"), bill, got);
    for _ in 0..ROUNDS / 50 {
        let p = *random.pick(&WIDTHS);
        let old = FullRun {
            width: if random.once_in(6) { random.below(40) } else { p },
            size: random.below(4_098),
            disk: random.below(p + 3),
            stripes: random.next() as u32,
            next: (random.next() >> (32 + random.below(32))) as u32,
        };
        let rates = random_rates(random);
        let expected = model::bill_run(&model_resume(old), rates);
        let call = || format!("bill_run(resume_full_run({old:?}), {rates:?})");
        group.same(call, expected, bill_run(&resume_full_run(old), rates));
    }
}
