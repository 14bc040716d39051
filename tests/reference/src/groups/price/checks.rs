//! What accepted plans cost where there are as many data disks as rows: the price formula, that none is below ours, and
//! that the order of the steps does not matter.
//! The counts are those the library's judge gives.

use super::model::terms;
use crate::groups::judge::calls::judge_plan;
use crate::groups::judge::model;
use crate::groups::planner::calls::plan_disk;
use crate::harness::answer::ACCEPTED;
use crate::harness::model::{bytes_of, Step};
use crate::harness::plans::{accepted_order, ready, Choice, Loss};
use crate::harness::{Group, Random, Setting};

/// Random accepted plans for each lost disk of each width.
const ROUNDS: usize = 200;

/// How many accepted plans cost as much as ours, how many cost more, and how many orders were exchanged.
#[derive(Default)]
struct Costs {
    equal: u64,
    more: u64,
    exchanged: u64,
}

pub fn run(setting: &mut Setting, group: &mut Group) {
    let random = &mut setting.random;
    let mut costs = Costs::default();
    for loss in Loss::full() {
        let ours = our_count(&loss);
        match loss.p {
            3 => every_field(group, &loss, ours, &mut costs),
            5 => every_order(group, &loss, ours, &mut costs),
            7 | 11 => every_choice(group, random, &loss, ours, &mut costs),
            _ => (),
        }
        for _ in 0..ROUNDS {
            let steps = loss.accepted(random);
            priced(group, &loss, &steps, ours, &mut costs);
            rearranged(group, random, &loss, &steps, &mut costs);
        }
    }
    group.same(|| "other orders were accepted".into(), true, costs.exchanged > 1_000);
    group.same(|| "plans as cheap as ours were met".into(), true, costs.equal > 1_000);
    group.same(|| "dearer plans were met".into(), true, costs.more > 1_000);
}

/// The judge's count for the planner's record.
fn our_count(loss: &Loss) -> u32 {
    let plan = plan_disk(loss.p, loss.p, loss.disk);
    judge_plan(loss.p, loss.p, loss.disk, &plan.steps.bytes(loss.p)).reads
}

/// All step sequences with fields in range; the accepted ones are priced.
fn every_field(group: &mut Group, loss: &Loss, ours: u32, costs: &mut Costs) {
    let p = loss.p;
    let each = 2 * p * p;
    for code in 0..each.pow(p as u32) {
        let digit = |place: usize| code / each.pow(place as u32) % each;
        let step = |d: usize| Step { row: d / (2 * p), kind: d / p % 2, number: d % p };
        let steps: Vec<Step> = (0..p).map(|place| step(digit(place))).collect();
        if judge_plan(p, p, loss.disk, &bytes_of(&steps)).answer == ACCEPTED {
            priced(group, loss, &steps, ours, costs);
        }
    }
}

/// All accepted step sequences.
fn every_order(group: &mut Group, loss: &Loss, ours: u32, costs: &mut Costs) {
    let mut begun: Vec<Vec<Step>> = vec![Vec::new()];
    while let Some(steps) = begun.pop() {
        if steps.len() == loss.p {
            priced(group, loss, &steps, ours, costs);
        } else {
            begun.extend(next_steps(loss, &steps));
        }
    }
}

/// The begun plan with each step that is accepted next.
fn next_steps(loss: &Loss, steps: &[Step]) -> Vec<Vec<Step>> {
    let open = |choice: &&Choice| {
        let rebuilt = steps.iter().any(|step| step.row == choice.step.row);
        !rebuilt && ready(choice, steps)
    };
    let longer = |choice: &Choice| [steps, &[choice.step]].concat();
    loss.choices.iter().flatten().filter(open).map(longer).collect()
}

/// All choices of sets that have an accepted order, in one such order.
fn every_choice(group: &mut Group, random: &mut Random, loss: &Loss, ours: u32, costs: &mut Costs) {
    let all: usize = loss.choices.iter().map(Vec::len).product();
    for code in 0..all {
        let mut rest = code;
        let mut take = |of_row: &Vec<Choice>| {
            let choice = of_row[rest % of_row.len()].clone();
            rest /= of_row.len();
            choice
        };
        let chosen = loss.choices.iter().map(&mut take).collect();
        if let Some(steps) = accepted_order(chosen, random) {
            priced(group, loss, &steps, ours, costs);
        }
    }
}

/// One accepted plan: its count, the formula, and the rule of equality.
fn priced(group: &mut Group, loss: &Loss, steps: &[Step], ours: u32, costs: &mut Costs) {
    let (p, disk) = (loss.p, loss.disk);
    let plan = bytes_of(steps);
    let judged = judge_plan(p, p, disk, &plan);
    let call = |what: &str| format!("judge_plan({p}, {p}, {disk}, {plan:?}), {what}");
    group.same(|| call("answer"), model::judge_plan(p, p, disk, &plan), judged);
    let count = judged.reads;
    let (t, u, v) = terms(loss, steps);
    let formula = p * p - t * (p - t) + u + v;
    group.same(|| call("price formula"), formula as u32, count);
    group.same(|| call("at least ours"), true, count >= ours);
    let half = 2 * t == p - 1 || 2 * t == p + 1;
    let equal = disk >= p || (half && u == 0 && v == 0);
    group.same(|| call("equal to ours"), equal, count == ours);
    match count == ours {
        true => costs.equal += 1,
        false => costs.more += 1,
    }
}

/// Two steps of an accepted plan exchanged: where that is accepted too, it costs as much.
fn rearranged(
    group: &mut Group,
    random: &mut Random,
    loss: &Loss,
    steps: &[Step],
    costs: &mut Costs,
) {
    let (p, disk) = (loss.p, loss.disk);
    let mut other = steps.to_vec();
    other.swap(random.below(p), random.below(p));
    let judge = |steps: &[Step]| judge_plan(p, p, disk, &bytes_of(steps));
    let judged = judge(&other);
    if judged.answer == ACCEPTED {
        costs.exchanged += 1;
        let call =
            || format!("judge_plan({p}, {p}, {disk}, {other:?}), another order of {steps:?}");
        group.same(call, judge(steps).reads, judged.reads);
    }
}
