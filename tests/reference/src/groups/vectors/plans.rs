//! Read lists, and the judge's answers to texts.

use super::file::{text_of, Line};
use crate::ffi::{Answer, Judged, Plan};
use crate::groups::balanced_plan::calls::balanced_plan;
use crate::groups::fewest_plan::calls::fewest_plan;
use crate::groups::plan_list::calls::plan_list;
use crate::groups::plan_texts::calls::{judge_text, plain_text, Written};
use crate::groups::plan_texts::model::ROOM;
use crate::groups::planner::calls::plan_disk;
use crate::groups::read_list::calls::read_list;
use crate::harness::answer::ACCEPTED;
use crate::harness::Group;

/// Width, data disks and lost disk.
fn numbers(line: &Line) -> (usize, usize, usize) {
    (line.shape.width, line.shape.disks, line.count(1))
}

/// The planner's count and read list.
pub fn list(group: &mut Group, line: &Line) {
    let (p, k, lost) = numbers(line);
    let planner: fn(usize, usize, usize) -> Plan = match line.words[0] {
        "own" => plan_disk,
        "fewest" => fewest_plan,
        _ => balanced_plan,
    };
    let plan = planner(p, k, lost);
    let mut got = vec![2; p * (k + 2)];
    group.same(|| line.name("the planner"), ACCEPTED, plan.answer);
    group.same(|| line.name("the planner's reads"), line.count(2), plan.reads as usize);
    let answer = plan_list((p, k, lost), &plan.steps.bytes(p), &mut got);
    group.same(|| line.name("plan_list"), ACCEPTED, answer);
    group.same_bytes(|| line.name("plan_list"), &marks(line), &got);
    if line.words[0] == "own" {
        group.same(|| line.name("read_list"), ACCEPTED, read_list(p, k, lost, &mut got));
        group.same_bytes(|| line.name("read_list"), &marks(line), &got);
    }
}

/// The marks of a line's words, one a disk.
fn marks(line: &Line) -> Vec<u8> {
    let word = |word: &&str| u32::from_str_radix(word, 16).expect("a word of bits");
    let rows = |word: u32| (0..line.shape.width).map(move |row| (word >> row & 1) as u8);
    line.words[3..].iter().map(word).flat_map(rows).collect()
}

pub fn accepted(group: &mut Group, line: &Line) {
    let (text, plain) = (text_of(line.words[3]), text_of(line.words[4]));
    let wanted = Judged { answer: ACCEPTED, reads: line.count(2) as u32 };
    group.same(|| line.name("judge_text"), wanted, judge_text(numbers(line), &text));
    let mut room = [0; ROOM];
    let written = plain_text(numbers(line), &text, &mut room);
    let length = plain.len();
    group.same(|| line.name("plain_text"), Written { answer: ACCEPTED, length }, written);
    group.same_bytes(|| line.name("plain_text"), &plain, &room[..length.min(ROOM)]);
}

pub fn refused(group: &mut Group, line: &Line) {
    let (refusal, place) = (line.count(2) as u8, line.count(3) as u32);
    let wanted = Judged { answer: Answer { refusal, place }, reads: 0 };
    let got = judge_text(numbers(line), &text_of(line.words[4]));
    group.same(|| line.name("judge_text"), wanted, got);
}
