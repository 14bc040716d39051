//! The judge on accepted and damaged plans, wrong lengths and refused numbers.

use super::calls::judge_plan;
use super::model::{self, Numbers};
use crate::harness::answer::ACCEPTED;
use crate::harness::model::{bytes_of, full_disk, Step};
use crate::harness::plans::{damaged, Loss};
use crate::harness::{numbers, Group, Lent, Random, Seen, Setting};

/// Rounds for each lost disk of each array; a round judges two plans.
const ROUNDS: usize = 300;
const PART_ROUNDS: usize = 25;

pub fn run(setting: &mut Setting, group: &mut Group) {
    let random = &mut setting.random;
    let mut seen = Seen::new("judge_plan");
    for loss in Loss::some() {
        random_plans(group, random, &loss, &mut seen);
        refusal_at_every_place(group, random, &loss, &mut seen);
        second_steps(group, random, &loss, &mut seen);
        wrong_lengths(group, random, &loss, &mut seen);
    }
    every_plan_of_width_3(group, random, &mut seen);
    refused_numbers(group, random, &mut seen);
    seen.each_came(group, &[0, 1, 3, 5, 6, 7, 8, 9, 13]);
}

/// Compares the answer, and the plan's bytes and all memory around them.
fn same_word(
    group: &mut Group,
    random: &mut Random,
    (width, disks, lost): Numbers,
    plan: &[u8],
    seen: &mut Seen,
) {
    let mut lent = Lent::of(plan, random);
    let before = lent.clone();
    let got = judge_plan(width, disks, lost, lent.part());
    let expected = model::judge_plan(width, disks, lost, plan);
    let call = || format!("judge_plan({width}, {disks}, {lost}, {plan:?})");
    group.same(call, expected, got);
    group.same_bytes(|| format!("{}, memory", call()), before.whole(), lent.whole());
    seen.note(got.answer);
}

/// The full array's answer on the same plan is the same; only the reads may differ.
fn same_as_full(group: &mut Group, (p, k, lost): Numbers, plan: &[u8]) {
    let full = judge_plan(p, p, full_disk(p, k, lost), plan).answer;
    let got = judge_plan(p, k, lost, plan).answer;
    let call = || format!("judge_plan({p}, {k}, {lost}, {plan:?}), the full array's answer");
    group.same(call, full, got);
}

fn numbers_of(loss: &Loss) -> Numbers {
    (loss.p, loss.k, loss.disk)
}

/// An accepted plan and a damaged one, many times.
fn random_plans(group: &mut Group, random: &mut Random, loss: &Loss, seen: &mut Seen) {
    let (p, k, disk) = numbers_of(loss);
    for _ in 0..if loss.is_full() { ROUNDS } else { PART_ROUNDS } {
        let steps = loss.accepted(random);
        let plan = bytes_of(&steps);
        let answer = judge_plan(p, k, disk, &plan).answer;
        let call = || format!("judge_plan({p}, {k}, {disk}, {plan:?}), answer");
        group.same(call, ACCEPTED, answer);
        let damaged = damaged(loss, &steps, random);
        for plan in [plan, damaged] {
            same_word(group, random, (p, k, disk), &plan, seen);
            if !loss.is_full() {
                same_as_full(group, (p, k, disk), &plan);
            }
        }
    }
}

/// For each place, an accepted plan with one bad step there.
fn refusal_at_every_place(group: &mut Group, random: &mut Random, loss: &Loss, seen: &mut Seen) {
    let p = loss.p;
    for place in 0..p {
        let steps = loss.accepted(random);
        let step = steps[place];
        let earlier = steps[random.below(place + 1)];
        let bad = [
            Step { row: p, ..step },
            Step { kind: 2, ..step },
            Step { number: p, ..step },
            Step { row: 255, kind: 255, number: 255 },
            Step { number: (step.number + 1) % p, ..step },
            Step { row: (step.row + 1) % p, ..step },
            Step { kind: 1 - step.kind, ..step },
            earlier,
            Step { number: p, ..earlier },
            Step { kind: 1 - earlier.kind, ..earlier },
        ];
        for step in bad {
            let mut steps = steps.clone();
            steps[place] = step;
            same_word(group, random, numbers_of(loss), &bytes_of(&steps), seen);
        }
    }
}

/// All second steps on the row just rebuilt, and on two other rows.
fn second_steps(group: &mut Group, random: &mut Random, loss: &Loss, seen: &mut Seen) {
    let p = loss.p;
    let needing = loss.needing();
    let row = needing.first().map_or(random.below(p), |choice| choice.step.row);
    let mut steps: Vec<Step> = loss.choices.iter().map(|of_row| of_row[0].step).collect();
    steps.swap(0, row);
    for second_row in [row, (row + 1) % p, (row + p - 1) % p, p] {
        for kind in 0..3 {
            for number in 0..=p {
                steps[1] = Step { row: second_row, kind, number };
                same_word(group, random, numbers_of(loss), &bytes_of(&steps), seen);
            }
        }
    }
}

fn wrong_lengths(group: &mut Group, random: &mut Random, loss: &Loss, seen: &mut Seen) {
    let (p, k, _) = numbers_of(loss);
    let plan = bytes_of(&loss.accepted(random));
    let right = plan.len();
    let near = [right - 3, right - 1, right + 1, right + 3, 2 * right, right + 256];
    let all = [0, 1, p, 3 * k, 3 * (k + 2)].into_iter().chain(near);
    for length in all.filter(|length| *length != right) {
        let longer: Vec<u8> = plan.iter().copied().cycle().take(length).collect();
        same_word(group, random, numbers_of(loss), &longer, seen);
    }
}

/// All three-step plans of width 3, fields up to one over the limit; with two data disks, fields in range.
fn every_plan_of_width_3(group: &mut Group, random: &mut Random, seen: &mut Seen) {
    for (disks, rows, kinds) in [(2, 3, 2), (3, 4, 3)] {
        let mut steps = Vec::new();
        for row in 0..rows {
            for kind in 0..kinds {
                steps.extend((0..rows).map(|number| [row, kind, number]));
            }
        }
        for lost in 0..disks + 2 {
            for first in &steps {
                for second in &steps {
                    for third in &steps {
                        let plan = [*first, *second, *third].concat();
                        same_word(group, random, (3, disks, lost), &plan, seen);
                    }
                }
            }
        }
    }
}

/// Refused widths, data disks and disks, with plans of right and wrong lengths.
fn refused_numbers(group: &mut Group, random: &mut Random, seen: &mut Seen) {
    for width in numbers::any_widths() {
        for lost in numbers::any_disks(width, width) {
            refused(group, random, (width, width, lost), seen);
        }
        for disks in numbers::any_data_disks(width) {
            for lost in numbers::few_disks(width, disks) {
                refused(group, random, (width, disks, lost), seen);
            }
        }
    }
}

fn refused(group: &mut Group, random: &mut Random, numbers: Numbers, seen: &mut Seen) {
    for length in [0, 15, 3 * numbers::cut(numbers.0)] {
        let rows = (0..length / 3).map(|row| Step { row, kind: 0, number: row });
        let mut plan = bytes_of(&rows.collect::<Vec<Step>>());
        plan.resize(length, 0);
        same_word(group, random, numbers, &plan, seen);
    }
}
