//! The read list of any plan: accepted and damaged plans, ours beside the read list, wrong lengths and refused numbers.

use super::calls::{plan_list, Numbers};
use super::model;
use crate::groups::judge::calls::judge_plan;
use crate::groups::read_list::calls::read_list;
use crate::harness::model::{bytes_of, our_steps};
use crate::harness::plans::{damaged, Loss};
use crate::harness::{numbers, Group, Lent, Random, Seen, Setting};

/// Rounds for each lost disk; a round lists an accepted plan and a damaged one.
const ROUNDS: usize = 20;

pub fn run(setting: &mut Setting, group: &mut Group) {
    let random = &mut setting.random;
    let mut seen = Seen::new("plan_list");
    for loss in Loss::some() {
        random_plans(group, random, &loss, &mut seen);
        ours(group, (loss.p, loss.k, loss.disk));
        wrong_lengths(group, random, &loss, &mut seen);
    }
    refused_numbers(group, random, &mut seen);
    seen.each_came(group, &[0, 1, 3, 5, 6, 7, 8, 9, 13]);
}

/// How many cells of each disk an accepted plan reads, by the library's list.
pub fn shares(numbers: Numbers, plan: &[u8]) -> Vec<usize> {
    let (p, k, _) = numbers;
    let mut list = vec![0; p * (k + 2)];
    plan_list(numbers, plan, &mut list);
    list.chunks(p).map(|marks| marks.iter().filter(|mark| **mark == 1).count()).collect()
}

/// Compares the answer, the list and the plan, and all memory around; an accepted list has as many
/// ones as the judge counts.
fn same_list(
    group: &mut Group,
    random: &mut Random,
    numbers: Numbers,
    plan: &[u8],
    length: usize,
    seen: &mut Seen,
) {
    let (mut sent, mut list) = (Lent::of(plan, random), Lent::noise(length, random));
    let (before, mut wanted) = (sent.clone(), list.clone());
    let got = plan_list(numbers, sent.part(), list.part());
    let expected = model::plan_list(numbers, plan, wanted.part());
    let call = || format!("plan_list({numbers:?}, {plan:?}, list of {length})");
    group.same(call, expected, got);
    group.same_bytes(|| format!("{}, list", call()), wanted.whole(), list.whole());
    group.same_bytes(|| format!("{}, plan", call()), before.whole(), sent.whole());
    if got.refusal == 0 {
        let (p, k, lost) = numbers;
        let ones = list.part().iter().filter(|mark| **mark == 1).count() as u32;
        group.same(|| format!("{}, ones", call()), judge_plan(p, k, lost, plan).reads, ones);
    }
    seen.note(got);
}

fn random_plans(group: &mut Group, random: &mut Random, loss: &Loss, seen: &mut Seen) {
    let length = loss.p * (loss.k + 2);
    for _ in 0..ROUNDS {
        let steps = loss.accepted(random);
        let damaged = damaged(loss, &steps, random);
        for plan in [bytes_of(&steps), damaged] {
            same_list(group, random, (loss.p, loss.k, loss.disk), &plan, length, seen);
        }
    }
}

/// The list of our plan is the read list.
fn ours(group: &mut Group, (p, k, lost): Numbers) {
    let (mut list, mut expected) = (vec![7; p * (k + 2)], vec![9; p * (k + 2)]);
    plan_list((p, k, lost), &bytes_of(&our_steps(p, k, lost)), &mut list);
    read_list(p, k, lost, &mut expected);
    group.same_bytes(|| format!("plan_list({p}, {k}, {lost}, our plan)"), &expected, &list);
}

/// One length wrong at a time, then both; a damaged plan is not looked at then.
fn wrong_lengths(group: &mut Group, random: &mut Random, loss: &Loss, seen: &mut Seen) {
    let numbers = (loss.p, loss.k, loss.disk);
    let steps = loss.accepted(random);
    let right = loss.p * (loss.k + 2);
    for plan in [bytes_of(&steps), damaged(loss, &steps, random)] {
        for length in [0, 1, loss.p, right - 1, right + 1, right + loss.p, 2 * right] {
            same_list(group, random, numbers, &plan, length, seen);
        }
        for length in [0, 1, plan.len() - 3, plan.len() - 1, plan.len() + 1, 2 * plan.len()] {
            let other: Vec<u8> = plan.iter().copied().cycle().take(length).collect();
            same_list(group, random, numbers, &other, right, seen);
            same_list(group, random, numbers, &other, right + 1, seen);
        }
    }
}

fn refused_numbers(group: &mut Group, random: &mut Random, seen: &mut Seen) {
    for width in numbers::any_widths() {
        for disks in numbers::any_data_disks(width) {
            for lost in numbers::few_disks(width, disks) {
                let [p, k] = [width, disks].map(numbers::cut);
                for length in [0, 35, p * (k + 2)] {
                    let plan = vec![0; 3 * p];
                    same_list(group, random, (width, disks, lost), &plan, length, seen);
                }
            }
        }
    }
}
