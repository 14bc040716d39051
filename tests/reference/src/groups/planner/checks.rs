//! The planner: every disk of every array, and refused numbers.

use super::calls::{plan_disk, Plan};
use super::model;
use crate::groups::judge::calls::{judge_plan, Judged};
use crate::harness::answer::ACCEPTED;
use crate::harness::model::full_disk;
use crate::harness::{arrays, numbers, Group, Setting};

pub fn run(_: &mut Setting, group: &mut Group) {
    for (p, k) in arrays::every() {
        for lost in 0..k + 2 {
            accepted(group, p, k, lost);
        }
    }
    for (width, disks, lost) in numbers::any_losses() {
        same_plan(group, width, disks, lost);
    }
}

fn same_plan(group: &mut Group, width: usize, disks: usize, lost: usize) -> Plan {
    let got = plan_disk(width, disks, lost);
    let expected = model::plan_disk(width, disks, lost);
    group.same(|| format!("plan_disk({width}, {disks}, {lost})"), expected, got);
    got
}

/// One accepted plan, with what its fields must be to one another and to the full array's plan.
fn accepted(group: &mut Group, p: usize, k: usize, lost: usize) {
    let plan = same_plan(group, p, k, lost);
    let say = |what: &str| format!("plan_disk({p}, {k}, {lost}), {what}");
    group.same(|| say("answer"), ACCEPTED, plan.answer);
    if let Some(reads) = formula(p, k, lost) {
        group.same(|| say("reads by formula"), reads, plan.reads);
    }
    group.same(|| say("routes"), routes(p, &plan), plan.routes);
    in_full(group, plan_disk, (p, k, lost), plan);
    judged(group, (p, k, lost), &plan);
}

/// The full array's plan has the same steps.
pub fn in_full(
    group: &mut Group,
    plan_of: impl Fn(usize, usize, usize) -> Plan,
    (p, k, lost): (usize, usize, usize),
    plan: Plan,
) {
    let full = plan_of(p, p, full_disk(p, k, lost));
    let call = || format!("the full array's plan for ({p}, {k}, {lost})");
    group.same(call, Plan { reads: plan.reads, ..full }, plan);
}

/// The judge accepts a plan with its count.
pub fn judged(group: &mut Group, (p, k, lost): (usize, usize, usize), plan: &Plan) {
    let judged = judge_plan(p, k, lost, &plan.steps.bytes(p));
    let expected = Judged { answer: ACCEPTED, reads: plan.reads };
    group.same(|| format!("judge_plan({p}, {k}, {lost}, a planner's record)"), expected, judged);
}

/// The read count of our plan where the papers give it.
fn formula(p: usize, k: usize, lost: usize) -> Option<u32> {
    if lost >= k {
        return Some((k * p) as u32);
    }
    (k == p).then_some((3 * p * p + 1) as u32 / 4)
}

/// The route word that the steps of a record make.
fn routes(p: usize, plan: &Plan) -> u32 {
    let diagonal = (0..p).filter(|&place| plan.steps.kinds[place] == 1);
    diagonal.fold(0, |word, place| word | 1u32.wrapping_shl(plan.steps.rows[place] as u32))
}
