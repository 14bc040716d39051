//! Reports in the second implementation: the lost disks as a list of numbers, and every total counted anew.

use super::calls::{ArrayState, Board, Totals};
use crate::harness::answer::{Answer, ACCEPTED};
use crate::harness::model::refuse;

/// The numbers of the bits that are set.
pub fn lost_disks(state: &ArrayState) -> Vec<usize> {
    (0..64).filter(|disk| state.lost / (1 << disk) % 2 == 1).collect()
}

/// How many arrays have lost no disk, one, two, and more.
pub fn fresh_count(list: &[ArrayState]) -> Totals {
    let mut totals = [0; 4];
    for state in list {
        totals[lost_disks(state).len().min(3)] += 1;
    }
    Totals::of(totals)
}

fn refuse_state(state: &ArrayState) -> Answer {
    let past = |disks: usize| lost_disks(state).last().is_some_and(|disk| *disk > disks + 1);
    refuse(state.width, state.disks).when(3, |shape| past(shape.disks)).answer()
}

fn refuse_report(list: &[ArrayState], which: usize, disk: usize, back: bool) -> Answer {
    if which >= list.len() || list.len() > 64 {
        return Answer::of(20);
    }
    if let Some(refused) = list.iter().map(refuse_state).find(|answer| *answer != ACCEPTED) {
        return refused;
    }
    let state = &list[which];
    let again = |_| lost_disks(state).contains(&disk) != back;
    refuse(state.width, state.disks).disk(disk).when(21, again).answer()
}

/// The call that reports a disk.
pub fn report_disk(list: &mut [ArrayState], which: usize, disk: usize, back: bool) -> Board {
    let answer = refuse_report(list, which, disk, back);
    if answer != ACCEPTED {
        return Board { answer, ..Board::default() };
    }
    let mut lost = lost_disks(&list[which]);
    match lost.iter().position(|other| *other == disk) {
        Some(place) => drop(lost.remove(place)),
        None => lost.push(disk),
    }
    list[which] = ArrayState::of(list[which].width, list[which].disks, &lost);
    Board { answer, totals: fresh_count(list) }
}
