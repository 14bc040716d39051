//! The fewest plan: every disk of every array, its price beside that of the other plans, and refused numbers.

use super::calls::fewest_plan;
use super::model;
use crate::ffi::Plan;
use crate::groups::balanced_plan::calls::balanced_plan;
use crate::groups::judge::calls::judge_plan;
use crate::groups::planner::calls::plan_disk;
use crate::groups::planner::checks::judged;
use crate::groups::relief_plan::calls::relief_plan;
use crate::harness::answer::ACCEPTED;
use crate::harness::model::bytes_of;
use crate::harness::plans::Loss;
use crate::harness::{arrays, numbers, Group, Random, Setting};

/// Random accepted plans for each disk, none of which reads fewer cells where the fewest are proved.
const OTHERS: usize = 5;

pub fn run(setting: &mut Setting, group: &mut Group) {
    for (p, k) in arrays::every() {
        for lost in 0..k + 2 {
            let plan = accepted(group, p, k, lost);
            if lost < k {
                beside_others(group, (p, k, lost), plan);
                nobody_reads_less(group, &mut setting.random, (p, k, lost), plan);
            }
        }
    }
    for (width, disks, lost) in numbers::any_losses() {
        same_plan(group, width, disks, lost);
    }
}

fn same_plan(group: &mut Group, width: usize, disks: usize, lost: usize) -> Plan {
    let got = fewest_plan(width, disks, lost);
    let expected = model::fewest_plan(width, disks, lost);
    group.same(|| format!("fewest_plan({width}, {disks}, {lost})"), expected, got);
    got
}

/// One accepted plan: the judge accepts it with its count; for P and Q it is ours.
fn accepted(group: &mut Group, p: usize, k: usize, lost: usize) -> Plan {
    let plan = same_plan(group, p, k, lost);
    let say = |what: &str| format!("fewest_plan({p}, {k}, {lost}), {what}");
    group.same(|| say("answer"), ACCEPTED, plan.answer);
    judged(group, (p, k, lost), &plan);
    if lost >= k {
        group.same(|| say("our plan"), plan_disk(p, k, lost), plan);
    }
    plan
}

/// It reads no more than any other plan of the library, and no more than the mean of the progressions.
fn beside_others(group: &mut Group, (p, k, lost): (usize, usize, usize), plan: Plan) {
    let say = |what: &str| format!("fewest_plan({p}, {k}, {lost}), {what}");
    let relieved = (0..k).filter(|disk| *disk != lost);
    let others = relieved.map(|disk| relief_plan(p, k, lost, disk));
    let mut others = others.chain([plan_disk(p, k, lost), balanced_plan(p, k, lost)]);
    group.same(|| say("no other reads less"), true, others.all(|of| plan.reads <= of.reads));
    let most = 4 * k * p - (k - 1) * (p + 1);
    group.same(|| say("most reads"), true, 4 * plan.reads as usize <= most);
}

/// The fewest reads of all accepted plans, where they are proved.
fn fewest(p: usize, k: usize) -> Option<u32> {
    let least = [(p, (3 * p * p + 1) / 4), (p - 1, (3 * p * p + 5) / 4 - p), (2, (3 * p + 1) / 2)];
    least.iter().find(|(disks, _)| *disks == k).map(|(_, reads)| *reads as u32)
}

fn nobody_reads_less(
    group: &mut Group,
    random: &mut Random,
    (p, k, lost): (usize, usize, usize),
    plan: Plan,
) {
    let Some(least) = fewest(p, k) else { return };
    group.same(|| format!("fewest_plan({p}, {k}, {lost}), reads"), least, plan.reads);
    let loss = Loss::new(p, k, lost);
    for _ in 0..OTHERS {
        let other = bytes_of(&loss.accepted(random));
        let call = || format!("no fewer than by fewest_plan({p}, {k}, {lost}), {other:?}");
        group.same(call, true, judge_plan(p, k, lost, &other).reads >= least);
    }
}
