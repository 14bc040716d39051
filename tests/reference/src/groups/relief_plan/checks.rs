//! The plan that relieves a disk: every pair of disks of every array, its price and the share of each disk, and refused
//! numbers.

use super::calls::relief_plan;
use super::model;
use crate::ffi::Plan;
use crate::groups::plan_list::checks::shares;
use crate::groups::planner::calls::plan_disk;
use crate::groups::planner::checks::{in_full, judged};
use crate::harness::answer::ACCEPTED;
use crate::harness::model::bytes_of;
use crate::harness::plans::Loss;
use crate::harness::{arrays, numbers, Group, Random, Setting};

/// Random accepted plans for each disk of some arrays, none of which asks less of a data disk.
const OTHERS: usize = 20;

pub fn run(setting: &mut Setting, group: &mut Group) {
    for (p, k) in arrays::every() {
        for lost in 0..k + 2 {
            for relieved in (0..k).filter(|disk| *disk != lost) {
                accepted(group, (p, k, lost), relieved);
            }
        }
    }
    for loss in Loss::some() {
        nobody_asks_less(group, &mut setting.random, &loss);
    }
    for width in numbers::any_widths() {
        for disks in numbers::any_data_disks(width) {
            let few = numbers::few_disks(width, disks);
            for lost in numbers::any_disks(width, disks).into_iter().chain(few) {
                for relieved in [lost, 0, 1, disks.wrapping_sub(1)].into_iter().chain(few) {
                    same_plan(group, (width, disks, lost), relieved);
                }
            }
        }
    }
}

fn same_plan(group: &mut Group, numbers: (usize, usize, usize), relieved: usize) -> Plan {
    let (width, disks, lost) = numbers;
    let got = relief_plan(width, disks, lost, relieved);
    let expected = model::relief_plan(width, disks, lost, relieved);
    group.same(|| format!("relief_plan({width}, {disks}, {lost}, {relieved})"), expected, got);
    got
}

/// One accepted plan: its steps are the full array's, the judge accepts it with its count, and the
/// relieved disk gives (p + 1) / 2 cells. Each disk has another way from the lost one in steps of
/// the plan, and gives p less that way.
fn accepted(group: &mut Group, (p, k, lost): (usize, usize, usize), relieved: usize) {
    let plan = same_plan(group, (p, k, lost), relieved);
    let say = |what: &str| format!("relief_plan({p}, {k}, {lost}, {relieved}), {what}");
    group.same(|| say("answer"), ACCEPTED, plan.answer);
    if lost >= k {
        return group.same(|| say("our plan"), plan_disk(p, k, lost), plan);
    }
    in_full(group, |p, k, lost| relief_plan(p, k, lost, relieved), (p, k, lost), plan);
    judged(group, (p, k, lost), &plan);
    let shares = shares((p, k, lost), &plan.steps.bytes(p));
    group.same(|| say("share"), (p + 1) / 2, shares[relieved]);
    group.same(|| say("shares of P and Q"), ((p + 1) / 2, (p - 1) / 2), (shares[k], shares[k + 1]));
    let step = 2 * (relieved + p - lost) % p;
    let ways = |disk: usize| (0..p).find(|x| (lost + x * step) % p == disk).expect("a way");
    let expected: Vec<usize> = (0..k)
        .map(|disk| if disk == lost { 0 } else { p - ways(disk).min(p - ways(disk)) })
        .collect();
    group.same(|| say("shares of data disks"), &expected[..], &shares[..k]);
    if k == p {
        group.same(|| say("reads"), (3 * p * p + 1) as u32 / 4, plan.reads);
    }
}

/// No accepted plan asks less than (p + 1) / 2 cells of a surviving data disk.
fn nobody_asks_less(group: &mut Group, random: &mut Random, loss: &Loss) {
    let numbers = (loss.p, loss.k, loss.disk);
    for _ in 0..OTHERS {
        let plan = bytes_of(&loss.accepted(random));
        let shares = shares(numbers, &plan);
        let mut data = (0..loss.k).filter(|disk| *disk != loss.disk).map(|disk| shares[disk]);
        let call = || format!("half of each data disk is read by {plan:?} for {numbers:?}");
        group.same(call, true, data.all(|of| of > loss.p / 2));
    }
}
