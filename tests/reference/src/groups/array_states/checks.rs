//! Reports on lists of arrays: each disk of each array lost and back, words bit by bit, the numbers of arrays, refusals,
//! and series of reports.

use super::calls::{report_disk, ArrayState, Board, Totals};
use super::{model, refused, series};
use crate::harness::answer::{Answer, ACCEPTED};
use crate::harness::model::WIDTHS;
use crate::harness::{arrays, small_stack, Group, Random, Setting};

pub fn run(setting: &mut Setting, group: &mut Group) {
    let random = &mut setting.random;
    examples(group);
    for (p, k) in arrays::every() {
        every_bit(group, p, k);
        all_disks(group, random, p, k);
    }
    for count in [1, 2, 3, 63, 64, 65, 66] {
        every_array(group, random, count);
    }
    refused::run(group, random);
    series::run(group, random);
    little_stack(group, random);
}

/// One report by both, on a list between guards; gives the library's answer.
pub fn same_report(
    group: &mut Group,
    list: &mut [ArrayState],
    which: usize,
    disk: usize,
    back: bool,
) -> Board {
    const GUARD: ArrayState = ArrayState { width: 5, disks: 5, lost: 0x5A5A };
    let call = || format!("report_disk({} arrays, {which}, {disk}, {back})", list.len());
    let mut lent = [&[GUARD; 2], &*list, &[GUARD; 2]].concat();
    let mut expected = lent.clone();
    let part = 2..2 + list.len();
    let wanted = model::report_disk(&mut expected[part.clone()], which, disk, back);
    let got = report_disk(&mut lent[part.clone()], which, disk, back);
    group.same(call, wanted, got);
    group.same(|| format!("{}, list and guards", call()), &expected, &lent);
    list.copy_from_slice(&lent[part]);
    got
}

/// An array in its limits with so many disks lost, any of its.
pub fn some_array(random: &mut Random, lost: usize) -> ArrayState {
    let width = *random.pick(&WIDTHS);
    let disks = 2 + random.below(width - 1);
    let mut state = ArrayState::of(width, disks, &[]);
    while (state.lost.count_ones() as usize) < lost.min(disks + 2) {
        state.lost |= 1 << random.below(disks + 2);
    }
    state
}

/// A list of arrays in their limits.
pub fn some_list(random: &mut Random, count: usize) -> Vec<ArrayState> {
    let mut some = |_| {
        let lost = random.below(5);
        some_array(random, lost)
    };
    (0..count).map(&mut some).collect()
}

/// What document 02 says, without the model.
fn examples(group: &mut Group) {
    let mut list =
        [ArrayState::of(5, 3, &[]), ArrayState::of(31, 31, &[0]), ArrayState::of(7, 7, &[7, 8])];
    let reports = [
        (0, 4, false, 0, [0, 2, 1, 0]),
        (2, 0, false, 0, [0, 2, 0, 1]), // a third loss
        (2, 1, false, 0, [0, 2, 0, 1]), // a fourth
        (2, 0, false, 21, [0; 4]),      // lost already
        (2, 7, true, 0, [0, 2, 0, 1]),
        (2, 8, true, 0, [0, 2, 1, 0]), // two are lost again
        (1, 32, false, 0, [0, 1, 2, 0]),
        (1, 33, false, 3, [0; 4]), // one past Q
        (1, 1, true, 21, [0; 4]),  // present already
        (3, 0, false, 20, [0; 4]),
        (0, 5, true, 3, [0; 4]),
        (0, 4, true, 0, [1, 0, 2, 0]),
    ];
    for (which, disk, back, refusal, totals) in reports {
        let expected = Board { answer: Answer::of(refusal), totals: Totals::of(totals) };
        let call = || format!("report_disk of the example, ({which}, {disk}, {back})");
        group.same(call, expected, report_disk(&mut list, which, disk, back));
    }
    let left = [
        ArrayState::of(5, 3, &[]),
        ArrayState::of(31, 31, &[0, 32]),
        ArrayState::of(7, 7, &[0, 1]),
    ];
    group.same(|| "report_disk, the list after the example".to_string(), left, list);
}

/// Every bit of the word alone: refused by 3 exactly from k + 2 on; the other bits of a full word the same.
fn every_bit(group: &mut Group, p: usize, k: usize) {
    for bit in 0..64 {
        for lost in [1 << bit, (1 << bit) | 1, !0 >> (63 - bit)] {
            let mut list = [ArrayState { width: p, disks: k, lost }];
            let before = list;
            let got = same_report(group, &mut list, 0, bit, true);
            let expected = if bit > k + 1 { Answer::of(3) } else { ACCEPTED };
            let call = || format!("report_disk, p {p}, k {k}, word {lost:#x}");
            group.same(call, expected, got.answer);
            if bit > k + 1 {
                group.same(call, before, list);
            }
        }
    }
}

/// Every disk of an array is lost, in any order, then comes back: each total in turn, and every disk past Q refused.
fn all_disks(group: &mut Group, random: &mut Random, p: usize, k: usize) {
    let mut list = [ArrayState::of(p, k, &[])];
    for back in [false, true] {
        let mut disks: Vec<usize> = (0..k + 2).collect();
        while !disks.is_empty() {
            let disk = disks.swap_remove(random.below(disks.len()));
            let got = same_report(group, &mut list, 0, disk, back);
            let left = if back { disks.len() } else { k + 2 - disks.len() };
            let mut totals = [0; 4];
            totals[left.min(3)] = 1;
            let expected = Board { answer: ACCEPTED, totals: Totals::of(totals) };
            group.same(|| format!("report_disk, p {p}, k {k}, {left} lost"), expected, got);
            same_report(group, &mut list, 0, disk, back); // a second time: 21
            for past in [k + 2, p + 2, 63, 64, 64 + disk, (1 << 32) + disk, usize::MAX] {
                same_report(group, &mut list, 0, past, back);
            }
        }
    }
}

/// Every array of a list, and numbers past it; more than 64 arrays are refused.
fn every_array(group: &mut Group, random: &mut Random, count: usize) {
    let good = some_list(random, count);
    let past = [count, count + 1, 64, 65, 1 << 32, usize::MAX / 24, usize::MAX];
    for which in (0..count).chain(past) {
        for back in [false, true] {
            let mut list = good.clone();
            let disk = random.below(4);
            let got = same_report(group, &mut list, which, disk, back);
            let twenty = which >= count || count > 64;
            let call = || format!("report_disk({count} arrays, {which}), 20");
            group.same(call, twenty, got.answer == Answer::of(20));
        }
    }
}

/// The longest list on a thread with little stack.
fn little_stack(group: &mut Group, random: &mut Random) {
    let mut list = some_list(random, 64);
    let mut expected = list.clone();
    let back = model::lost_disks(&list[63]).contains(&0);
    let wanted = model::report_disk(&mut expected, 63, 0, back);
    let got = small_stack::run(|| report_disk(&mut list, 63, 0, back));
    group.same(|| "report_disk on 64 KiB of stack".to_string(), wanted, got);
    group.same(|| "report_disk on 64 KiB of stack, list".to_string(), expected, list);
}
