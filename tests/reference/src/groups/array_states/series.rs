//! Series of reports on one list, good and bad ones, with a fresh count after each: the last accepted report of a disk
//! stands, and all else does.

use std::collections::HashMap;

use super::calls::{ArrayState, Totals};
use super::checks::{same_report, some_array, some_list};
use super::model::{fresh_count, lost_disks};
use crate::harness::answer::ACCEPTED;
use crate::harness::{Group, Random};

/// Series, and reports of each.
const SERIES: usize = 300;
const REPORTS: usize = 200;

pub fn run(group: &mut Group, random: &mut Random) {
    for n in 0..SERIES {
        let count = if n % 8 == 0 { 64 } else { 1 + random.below(6) };
        let mut list = some_list(random, count);
        series(group, random, &mut list);
    }
    sixty_four(group, random);
}

fn series(group: &mut Group, random: &mut Random, list: &mut [ArrayState]) {
    let start = list.to_vec();
    let mut last = HashMap::new();
    for _ in 0..REPORTS {
        let past = [random.once_in(16), random.once_in(8)].map(usize::from);
        let which = random.below(list.len() + past[0]);
        let disks = list.get(which).map_or(4, |state| state.disks);
        let disk = random.below(disks + 2 + past[1]);
        let back = random.once_in(2);
        let got = same_report(group, list, which, disk, back);
        if got.answer == ACCEPTED {
            last.insert((which, disk), back);
            let call = || format!("report_disk({which}, {disk}, {back}), fresh count");
            group.same(call, fresh_count(list), got.totals);
        } else {
            group.same(|| "report_disk, refused".to_string(), Totals::default(), got.totals);
        }
    }
    for (which, (before, after)) in start.iter().zip(list.iter()).enumerate() {
        let (was, is) = (lost_disks(before), lost_disks(after));
        for disk in 0..64 {
            let expected = last.get(&(which, disk)).map_or(was.contains(&disk), |back| !back);
            let call = || format!("report_disk, disk {disk} of array {which} after a series");
            group.same(call, expected, is.contains(&disk));
        }
        let shape = |state: &ArrayState| (state.width, state.disks);
        group.same(
            || "report_disk, p and k after a series".to_string(),
            shape(before),
            shape(after),
        );
    }
}

/// 64 arrays, all in each of the four totals in turn.
fn sixty_four(group: &mut Group, random: &mut Random) {
    let mut list: Vec<ArrayState> = (0..64).map(|_| some_array(random, 0)).collect();
    for (disk, from, to) in [(1, 0, 1), (3, 1, 2), (0, 2, 3), (2, 3, 3)] {
        for which in 0..64 {
            let got = same_report(group, &mut list, which, disk, false);
            let mut totals = [0; 4];
            totals[from] += 63 - which as u32;
            totals[to] += 1 + which as u32;
            group.same(
                || format!("report_disk, {disk} lost of 64 arrays"),
                Totals::of(totals),
                got.totals,
            );
        }
    }
}
