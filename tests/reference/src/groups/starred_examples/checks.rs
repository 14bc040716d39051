//! The examples of document 01 on plans, with the document's own numbers, and its rules with fewer data disks than
//! rows (document 02), with numbers counted by hand.

use crate::groups::judge::calls::{judge_plan, Judged};
use crate::groups::planner::calls::plan_disk;
use crate::groups::read_list::calls::read_list;
use crate::harness::answer::Answer;
use crate::harness::model::{bytes_of, Step};
use crate::harness::plans::Loss;
use crate::harness::{Group, Setting};

pub fn run(_: &mut Setting, group: &mut Group) {
    routes(group);
    reads(group);
    widths(group);
    refused_calls(group);
    refused_steps(group);
    first_refusal(group);
    extra_cells(group);
    fewer_disks(group);
    refused_fewer_disks(group);
}

/// The routes of an accepted plan, row 0 first.
fn routes_text(p: usize, f: usize) -> String {
    let word = plan_disk(p, p, f).routes;
    (0..p).map(|row| if word >> row & 1 == 1 { '1' } else { '0' }).collect()
}

fn routes(group: &mut Group) {
    let examples = [
        (3, 0, "100"),
        (3, 2, "011"),
        (5, 0, "11000"),
        (5, 1, "01010"),
        (5, 3, "00011"),
        (5, 4, "00101"),
        (7, 1, "0110100"),
        (11, 1, "01111010000"),
    ];
    for (p, f, text) in examples {
        let got = routes_text(p, f);
        group.same(|| format!("plan_disk({p}, {p}, {f}), routes"), text.to_string(), got);
    }
}

fn reads(group: &mut Group) {
    group.same(|| "plan_disk(11, 11, 1), reads".into(), 91, plan_disk(11, 11, 1).reads);
    for f in 0..31 {
        group.same(|| format!("plan_disk(31, 31, {f}), reads"), 721, plan_disk(31, 31, f).reads);
    }
    let plan = plan_disk(3, 3, 1);
    let steps = vec![0, 0, 0, 1, 1, 0, 2, 1, 1];
    group.same(|| "plan_disk(3, 3, 1), steps".into(), steps, plan.steps.bytes(3));
    group.same(|| "plan_disk(3, 3, 1), reads".into(), 7, plan.reads);
    judged(group, (5, 5, 1), &[0, 0, 0, 1, 0, 1, 2, 0, 2, 3, 0, 3, 4, 0, 4], 0, 0, 25);
    judged(group, (5, 5, 1), &[0, 0, 0, 3, 0, 3, 4, 0, 4, 1, 1, 0, 2, 1, 2], 0, 0, 20);
    judged(group, (5, 5, 0), &[0, 0, 0, 2, 0, 2, 4, 0, 4, 1, 1, 1, 3, 1, 3], 0, 0, 21);
}

/// The judge gives this refusal, place and count.
fn judged(
    group: &mut Group,
    (p, k, disk): (usize, usize, usize),
    plan: &[u8],
    refusal: u8,
    place: u32,
    reads: u32,
) {
    let call = || format!("judge_plan({p}, {k}, {disk}, {plan:?})");
    let got = judge_plan(p, k, disk, plan);
    group.same(call, Judged { answer: Answer { refusal, place }, reads }, got);
}

/// All three calls give this refusal, 0 for none.
fn all_calls(group: &mut Group, (p, k): (usize, usize), disk: usize, refusal: u8) {
    let say = |call: &str| format!("{call}({p}, {k}, {disk}, ...), answer");
    let plan = plan_disk(p, k, disk);
    group.same(|| say("plan_disk"), Answer::of(refusal), plan.answer);
    let list = read_list(p, k, disk, &mut vec![0; p * (k + 2)]);
    group.same(|| say("read_list"), Answer::of(refusal), list);
    let kind = (disk == k + 1) as usize;
    let steps: Vec<Step> = (0..p).map(|row| Step { row, kind, number: row }).collect();
    let word = judge_plan(p, k, disk, &bytes_of(&steps));
    group.same(|| say("judge_plan"), Answer::of(refusal), word.answer);
}

fn widths(group: &mut Group) {
    for disk in 0..33 {
        all_calls(group, (31, 31), disk, 0);
        all_calls(group, (37, 37), disk, 1);
    }
}

/// Rows 1, 3 and 5 of the refusal table.
fn refused_calls(group: &mut Group) {
    all_calls(group, (9, 9), 0, 1);
    all_calls(group, (9, 9), 99, 1);
    all_calls(group, (5, 5), 7, 3);
    all_calls(group, (31, 31), 33, 3);
    for length in [14, 34, 36] {
        let got = read_list(5, 5, 1, &mut vec![0; length]);
        let call = || format!("read_list(5, 5, 1, list of {length})");
        group.same(call, Answer::of(5), got);
    }
    let got = read_list(3, 3, 1, &mut [0; 14]);
    group.same(|| "read_list(3, 3, 1, list of 14)".into(), Answer::of(5), got);
    judged(group, (3, 3, 1), &[0, 0, 0, 1, 0, 1, 2, 0], 5, 0, 0);
    judged(group, (3, 3, 1), &[0, 0, 0, 1, 0, 1, 2, 0, 2, 0], 5, 0, 0);
    judged(group, (5, 5, 1), &[0; 14], 5, 0, 0);
    judged(group, (5, 5, 1), &[], 5, 0, 0);
}

/// A plan of width 5 that begins with these steps; rows 0 to 4 follow.
fn begun(steps: &[[u8; 3]]) -> Vec<u8> {
    let rows = (0..5).map(|row| [row, 0, row]);
    steps.iter().copied().chain(rows).take(5).flatten().collect()
}

/// Rows 6 to 9 of the refusal table.
fn refused_steps(group: &mut Group) {
    judged(group, (5, 5, 1), &begun(&[[5, 0, 0]]), 6, 0, 0);
    judged(group, (5, 5, 1), &begun(&[[0, 2, 0]]), 6, 0, 0);
    judged(group, (5, 5, 1), &begun(&[[0, 0, 5]]), 6, 0, 0);
    judged(group, (5, 5, 1), &begun(&[[2, 0, 2], [5, 0, 0]]), 6, 1, 0);
    judged(group, (5, 5, 1), &begun(&[[0, 1, 0]]), 7, 0, 0);
    judged(group, (5, 5, 1), &begun(&[[4, 0, 4], [0, 1, 0]]), 7, 1, 0);
    judged(group, (5, 5, 1), &begun(&[[0, 0, 0], [0, 0, 0]]), 8, 1, 0);
    judged(group, (5, 5, 1), &begun(&[[3, 1, 2]]), 9, 0, 0);
    judged(group, (5, 5, 1), &begun(&[[4, 0, 4], [3, 1, 2]]), 9, 1, 0);
}

/// Where two refusals apply, the lower number is given; the first step wins.
fn first_refusal(group: &mut Group) {
    judged(group, (5, 5, 1), &begun(&[[3, 0, 3], [3, 1, 2]]), 8, 1, 0);
    judged(group, (5, 5, 1), &begun(&[[3, 0, 3], [3, 1, 0]]), 7, 1, 0);
    judged(group, (5, 5, 1), &begun(&[[3, 0, 3], [3, 2, 0]]), 6, 1, 0);
    judged(group, (5, 5, 1), &begun(&[[3, 1, 2], [5, 0, 0]]), 9, 0, 0);
    judged(group, (5, 5, 1), &begun(&[[0, 0, 0], [0, 0, 0], [9, 9, 9]]), 8, 1, 0);
}

/// The rows of a lost disk that the judge finds in D i of width 5 with k data disks.
fn rows_held(k: usize, disk: usize, i: usize) -> Vec<usize> {
    let loss = Loss::new(5, k, disk);
    let held = |row: &usize| {
        let first = Step { row: *row, kind: 1, number: i };
        let plan = bytes_of(&loss.started_with(first));
        judge_plan(5, k, disk, &plan).answer.refusal != 7
    };
    (0..5).filter(held).collect()
}

/// The extra cells for p = 5, on every lost disk and with every number of data disks: a disk that
/// is absent has no cell in any diagonal, nor has P or Q one for it.
fn extra_cells(group: &mut Group) {
    let extra = [None, Some((3, 3)), Some((2, 1)), Some((1, 4)), Some((0, 2))];
    for k in 2..=5 {
        for (i, extra) in extra.into_iter().enumerate() {
            for disk in 0..k {
                let mut rows = vec![(i + disk) % 5];
                rows.extend(extra.filter(|cell| cell.1 == disk).map(|cell| cell.0));
                rows.sort();
                held(group, (k, disk, i), rows);
            }
            held(group, (k, k, i), vec![]);
            held(group, (k, k + 1, i), vec![i]);
        }
    }
    for (i, row, disk) in [(1, 3, 3), (2, 2, 1), (3, 1, 4), (4, 0, 2)] {
        extra_cell(group, i, row, disk);
    }
}

/// D i holds these rows of the lost disk.
fn held(group: &mut Group, (k, disk, i): (usize, usize, usize), rows: Vec<usize>) {
    let call = || format!("judge_plan(5, {k}, {disk}, ...), rows that D {i} holds");
    group.same(call, rows, rows_held(k, disk, i));
}

/// D i holds (row, disk) as extra: each of its lost cells needs the other
/// first, and to rebuild the extra one takes a cell more.
fn extra_cell(group: &mut Group, i: u8, row: u8, disk: usize) {
    let ordinary = (i + disk as u8) % 5;
    judged(group, (5, 5, disk), &begun(&[[row, 1, i]]), 9, 0, 0);
    judged(group, (5, 5, disk), &begun(&[[ordinary, 1, i]]), 9, 0, 0);
    for (first, second, reads) in [(row, ordinary, 21), (ordinary, row, 22)] {
        let mut plan = vec![first, 0, first, second, 1, i];
        let others = (0..5).filter(|r| *r != first && *r != second);
        plan.extend(others.flat_map(|r| [r, 0, r]));
        judged(group, (5, 5, disk), &plan, 0, 0, reads);
    }
}

/// Seven rows and five data disks: the steps are those of the full array, and a lost P (5) or Q (6) reads 35.
/// Width 5 and three data disks: a row set has three survivors, D 0 for disk 1 adds only Q's cell to R 0 and R 2.
fn fewer_disks(group: &mut Group) {
    let plan = plan_disk(7, 5, 1);
    let steps = vec![0, 0, 0, 3, 0, 3, 5, 0, 5, 6, 0, 6, 1, 1, 0, 2, 1, 1, 4, 1, 3];
    group.same(|| "plan_disk(7, 5, 1), steps".into(), steps, plan.steps.bytes(7));
    group.same(|| "plan_disk(7, 5, 1), routes".into(), 0b0010110, plan.routes);
    for lost in [5, 6] {
        let reads = plan_disk(7, 5, lost).reads;
        group.same(|| format!("plan_disk(7, 5, {lost}), reads"), 35, reads);
    }
    group.same(|| "plan_disk(5, 3, 1), reads".into(), 11, plan_disk(5, 3, 1).reads);
    judged(group, (5, 3, 1), &[0, 0, 0, 1, 0, 1, 2, 0, 2, 3, 0, 3, 4, 0, 4], 0, 0, 15);
    judged(group, (5, 3, 1), &[0, 0, 0, 3, 0, 3, 4, 0, 4, 1, 1, 0, 2, 1, 2], 0, 0, 13);
    judged(group, (5, 3, 0), &[0, 0, 0, 2, 0, 2, 4, 0, 4, 1, 1, 1, 3, 1, 3], 0, 0, 12);
    judged(group, (5, 4, 0), &[0, 0, 0, 2, 0, 2, 4, 0, 4, 1, 1, 1, 3, 1, 3], 0, 0, 17);
    judged(group, (5, 3, 3), &begun(&[[3, 1, 1]]), 7, 0, 0);
    judged(group, (5, 3, 4), &begun(&[[1, 1, 3]]), 7, 0, 0);
}

/// Refusal 13 and refusal 3 with fewer data disks than rows.
fn refused_fewer_disks(group: &mut Group) {
    for disk in 0..7 {
        all_calls(group, (7, 5), disk, 0);
    }
    all_calls(group, (7, 5), 7, 3);
    all_calls(group, (7, 5), 8, 3);
    for k in [0, 1, 8, 9] {
        all_calls(group, (7, k), 0, 13);
        all_calls(group, (7, k), 99, 13);
        all_calls(group, (9, k), 0, 1);
    }
    all_calls(group, (7, 2), 3, 0);
    all_calls(group, (7, 7), 8, 0);
}
