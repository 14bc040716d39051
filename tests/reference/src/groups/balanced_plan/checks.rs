//! The balanced plan: every disk of every array, its price and the share of each disk, and refused numbers.

use super::calls::balanced_plan;
use super::model;
use crate::ffi::Plan;
use crate::groups::plan_list::checks::shares;
use crate::groups::planner::checks::{in_full, judged};
use crate::harness::answer::ACCEPTED;
use crate::harness::plans::Loss;
use crate::harness::{arrays, numbers, Group, Random, Setting};

/// Random accepted plans for each disk of a full array, none with a quieter busiest survivor.
const OTHERS: usize = 20;

pub fn run(setting: &mut Setting, group: &mut Group) {
    for (p, k) in arrays::every() {
        for lost in 0..k + 2 {
            accepted(group, p, k, lost);
        }
    }
    for loss in Loss::full().iter().filter(|loss| loss.disk < loss.k) {
        nobody_quieter(group, &mut setting.random, loss);
    }
    for (width, disks, lost) in numbers::any_losses() {
        same_plan(group, width, disks, lost);
    }
}

fn same_plan(group: &mut Group, width: usize, disks: usize, lost: usize) -> Plan {
    let got = balanced_plan(width, disks, lost);
    let expected = model::balanced_plan(width, disks, lost);
    group.same(|| format!("balanced_plan({width}, {disks}, {lost})"), expected, got);
    got
}

/// The most that the plan asks of a survivor: (3p - 1) / 4, rounded up.
fn most(p: usize) -> usize {
    (3 * p - 1).div_ceil(4)
}

/// One accepted plan: its steps are the full array's, the judge accepts it with its count, and no
/// disk gives more than promised.
fn accepted(group: &mut Group, p: usize, k: usize, lost: usize) {
    let plan = same_plan(group, p, k, lost);
    let say = |what: &str| format!("balanced_plan({p}, {k}, {lost}), {what}");
    group.same(|| say("answer"), ACCEPTED, plan.answer);
    in_full(group, balanced_plan, (p, k, lost), plan);
    judged(group, (p, k, lost), &plan);
    if lost >= k {
        return group.same(|| say("reads"), (k * p) as u32, plan.reads);
    }
    let shares = shares((p, k, lost), &plan.steps.bytes(p));
    let data = || (0..k).filter(|disk| *disk != lost).map(|disk| shares[disk]);
    group.same(|| say("shares of P and Q"), ((p + 1) / 2, (p - 1) / 2), (shares[k], shares[k + 1]));
    group.same(|| say("no share above the most"), true, shares.iter().all(|of| *of <= most(p)));
    group.same(|| say("shares apart by one at most"), true, data().all(|of| of + 1 >= most(p)));
    if k == p {
        group.same(|| say("reads"), (3 * p * p + 1) as u32 / 4, plan.reads);
    }
}

/// Every accepted plan of a full array has a surviving data disk that gives as many cells.
fn nobody_quieter(group: &mut Group, random: &mut Random, loss: &Loss) {
    let numbers = (loss.p, loss.k, loss.disk);
    for _ in 0..OTHERS {
        let plan = crate::harness::model::bytes_of(&loss.accepted(random));
        let busiest = shares(numbers, &plan)[..loss.k].iter().copied().max();
        let call = || format!("a survivor as busy as by balanced_plan{numbers:?}, {plan:?}");
        group.same(call, true, busiest >= Some(most(loss.p)));
    }
}
