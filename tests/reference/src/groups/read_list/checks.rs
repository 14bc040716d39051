//! The read list: every disk of every array, beside the full array's, and refused numbers and lengths.

use super::calls::read_list;
use super::model;
use crate::groups::planner::calls::plan_disk;
use crate::harness::answer::ACCEPTED;
use crate::harness::model::full_disk;
use crate::harness::{arrays, numbers, Group, Lent, Random, Setting};

/// Width, data disks and lost disk.
type Numbers = (usize, usize, usize);

pub fn run(setting: &mut Setting, group: &mut Group) {
    let random = &mut setting.random;
    for (p, k) in arrays::every() {
        for lost in 0..k + 2 {
            accepted(group, random, (p, k, lost));
            for length in other_lengths(p, k) {
                same_list(group, random, (p, k, lost), length);
            }
        }
    }
    for width in numbers::any_widths() {
        for lost in numbers::any_disks(width, width) {
            refused(group, random, (width, width, lost));
        }
        for disks in numbers::any_data_disks(width) {
            for lost in numbers::few_disks(width, disks) {
                refused(group, random, (width, disks, lost));
            }
        }
    }
}

/// Compares the answer and all memory around; gives the list back.
fn same_list(group: &mut Group, random: &mut Random, numbers: Numbers, length: usize) -> Vec<u8> {
    let (width, disks, lost) = numbers;
    let mut lent = Lent::noise(length, random);
    let mut wanted = lent.clone();
    let got = read_list(width, disks, lost, lent.part());
    let expected = model::read_list(width, disks, lost, wanted.part());
    let call = || format!("read_list({width}, {disks}, {lost}, list of {length})");
    group.same(call, expected, got);
    group.same_bytes(|| format!("{}, memory", call()), wanted.whole(), lent.whole());
    lent.part().to_vec()
}

/// An accepted list has as many ones as the plan has reads, and the full array's list has the
/// same bytes for the same disks: P's and Q's rows beside P's and Q's.
fn accepted(group: &mut Group, random: &mut Random, (p, k, lost): Numbers) {
    let list = same_list(group, random, (p, k, lost), p * (k + 2));
    let ones = list.iter().filter(|byte| **byte == 1).count() as u32;
    let zeros = list.iter().filter(|byte| **byte == 0).count() as u32;
    let reads = plan_disk(p, k, lost).reads;
    let call = |what: &str| format!("read_list({p}, {k}, {lost}), {what}");
    let all = (p * (k + 2)) as u32;
    group.same(|| call("ones and zeros"), (reads, all - reads), (ones, zeros));
    let mut full = vec![0; p * (p + 2)];
    let answer = read_list(p, p, full_disk(p, k, lost), &mut full);
    group.same(|| call("the full array's answer"), ACCEPTED, answer);
    let in_full = |disk: usize| &full[full_disk(p, k, disk) * p..][..p];
    let expected: Vec<u8> = (0..k + 2).flat_map(in_full).copied().collect();
    group.same_bytes(|| call("beside the full array's"), &expected, &list);
}

fn other_lengths(p: usize, k: usize) -> Vec<usize> {
    let right = p * (k + 2);
    let near = [right - 1, right + 1, right - p, right + p, 2 * right, right + 256];
    let all = [0, 1, p, p * k, k * (k + 2), p * (p + 2)].into_iter().chain(near);
    all.filter(|length| *length != right).collect()
}

/// Refused numbers with lengths of every sort.
fn refused(group: &mut Group, random: &mut Random, numbers: Numbers) {
    let [p, k] = [numbers.0, numbers.1].map(numbers::cut);
    for length in [0, 1, 35, p * (k + 2)] {
        same_list(group, random, numbers, length);
    }
}
