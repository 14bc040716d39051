//! Reports that are refused: bad records in each place of a list, and every mix of faults.

use super::calls::ArrayState;
use super::checks::{same_report, some_array, some_list};
use crate::harness::answer::Answer;
use crate::harness::{numbers, Group, Random};

pub fn run(group: &mut Group, random: &mut Random) {
    empty_list(group);
    for count in [1, 2, 3, 7, 64] {
        one_bad_record(group, random, count);
        two_bad_records(group, random, count);
    }
    for _ in 0..200 {
        every_fault(group, random);
    }
    any_numbers(group, random);
}

/// A record that its own refusal names: 1, 13 or 3.
fn bad_array(random: &mut Random, refusal: u8) -> ArrayState {
    let losses = random.below(3);
    let good = some_array(random, losses);
    let (p, k) = (good.width, good.disks);
    match refusal {
        1 => {
            ArrayState { width: *random.pick(&[0, 1, 9, p + 1, (1 << 32) + p, usize::MAX]), ..good }
        }
        13 => ArrayState { disks: *random.pick(&[0, 1, p + 1, (1 << 32) + k, usize::MAX]), ..good },
        _ => ArrayState { lost: good.lost | 1 << (k + 2 + random.below(62 - k)), ..good },
    }
}

fn empty_list(group: &mut Group) {
    for which in [0, 1, usize::MAX] {
        for back in [false, true] {
            let got = same_report(group, &mut [], which, 0, back);
            group.same(|| format!("report_disk(no array, {which})"), Answer::of(20), got.answer);
        }
    }
}

/// The refusal of one bad record in each place of a list decides, whichever array and disk are reported.
fn one_bad_record(group: &mut Group, random: &mut Random, count: usize) {
    for place in 0..count {
        for refusal in [1, 13, 3] {
            let mut list = some_list(random, count);
            list[place] = bad_array(random, refusal);
            for which in [0, place, count - 1, random.below(count)] {
                for disk in [0, 1, 40, usize::MAX] {
                    let before = list.clone();
                    let got = same_report(group, &mut list, which, disk, random.once_in(2));
                    let call = || {
                        format!("report_disk({count} arrays, {which}, {disk}), {place} bad by {refusal}")
                    };
                    group.same(call, Answer::of(refusal), got.answer);
                    group.same(call, &before, &list);
                }
            }
        }
    }
}

/// Of two bad records the earlier one decides.
fn two_bad_records(group: &mut Group, random: &mut Random, count: usize) {
    for (first, second) in (0..count).flat_map(|a| (a + 1..count).map(move |b| (a, b))) {
        for (one, other) in [(1, 13), (1, 3), (13, 1), (13, 3), (3, 1), (3, 13)] {
            if count > 7 && second > first + 1 && !random.once_in(16) {
                continue;
            }
            let mut list = some_list(random, count);
            list[first] = bad_array(random, one);
            list[second] = bad_array(random, other);
            let which = *random.pick(&[0, first, second, count - 1]);
            let got = same_report(group, &mut list, which, random.below(3), random.once_in(2));
            let call = || {
                format!("report_disk({count} arrays, {which}), {first} bad by {one}, {second} by {other}")
            };
            group.same(call, Answer::of(one), got.answer);
        }
    }
}

/// Every mix of faults, in the order in which they are tested: the number, width, data disks and lost disks of a record,
/// the disk, its state.
fn every_fault(group: &mut Group, random: &mut Random) {
    const ORDER: [u8; 6] = [20, 1, 13, 3, 3, 21];
    for mix in 0..1 << ORDER.len() {
        let bad = |n: usize| mix >> n & 1 == 1;
        let count = if bad(0) && random.once_in(2) { 65 } else { 1 + random.below(6) };
        let mut list = some_list(random, count);
        let which = random.below(count);
        let state = list[which];
        let lost = state.lost;
        let disk =
            if bad(4) { state.disks + 2 + random.below(70) } else { random.below(state.disks + 2) };
        let is_lost = disk < 64 && lost >> disk & 1 == 1;
        let back = if bad(5) { !is_lost } else { is_lost };
        // One record is bad in all these ways: the first of them decides within it, too.
        let place = random.below(count);
        let worse = &mut list[place];
        if bad(3) {
            worse.lost |= 1 << (worse.disks + 2);
        }
        if bad(2) {
            worse.disks = *random.pick(&[0, 1, worse.width + 1]);
        }
        if bad(1) {
            worse.width = *random.pick(&[0, 9, 33, usize::MAX]);
        }
        let number = if bad(0) && count < 65 { count + random.below(3) } else { which };
        let got = same_report(group, &mut list, number, disk, back);
        let first = (0..ORDER.len()).find(|n| bad(*n)).map_or(0, |n| ORDER[n]);
        let call = || format!("report_disk({count} arrays, {number}, {disk}), faults {mix:#b}");
        group.same(call, Answer::of(first), got.answer);
    }
}

/// Widths, data disks and disks that are accepted once cut, in a list with a good array.
fn any_numbers(group: &mut Group, random: &mut Random) {
    for width in numbers::any_widths() {
        for disks in numbers::any_data_disks(width) {
            for disk in numbers::few_disks(width, disks) {
                let good = some_array(random, 1);
                let odd = ArrayState { width, disks, lost: 1 << random.below(64) & 0xF };
                let which = random.below(2);
                same_report(group, &mut [odd, good], which, disk, random.once_in(2));
                same_report(group, &mut [good, odd], which, disk, random.once_in(2));
            }
        }
    }
}
