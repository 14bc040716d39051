//! Plans as text: every field with every byte, line ends, damaged texts, plain forms and lengths of the lent slice.

use super::calls::{judge_text, plain_text, write_plan, Numbers, Written};
use super::forms::{any_form, damaged};
use super::model::{self, plain, steps_in, ROOM};
use super::odd::{every_number, odd_ends, odd_lines, odd_names};
use crate::groups::judge::calls::judge_plan;
use crate::harness::answer::ACCEPTED;
use crate::harness::model::{bytes_of, our_steps, steps_of, Step};
use crate::harness::plans::{damaged as damaged_plan, Loss};
use crate::harness::{arrays, numbers, small_stack, Group, Lent, Random, Seen, Setting};

/// Damaged texts in all.
const DAMAGED: usize = 100_000;

pub fn run(setting: &mut Setting, group: &mut Group) {
    let random = &mut setting.random;
    let mut seen = Seen::new("a text");
    for (p, k) in arrays::every() {
        for lost in 0..k + 2 {
            round_trip(group, random, (p, k, lost), &our_steps(p, k, lost));
        }
    }
    let losses = Loss::some();
    for loss in &losses {
        host_plans(group, random, loss, &mut seen);
        other_rooms(group, random, loss, &mut seen);
    }
    for loss in losses.iter().filter(|loss| loss.disk == 1) {
        every_byte_in_every_field(group, random, loss, &mut seen);
        known_forms(group, random, loss, &mut seen);
    }
    for n in 0..DAMAGED {
        let loss = &losses[n % losses.len()];
        let text = damaged(&any_form(&loss.accepted(random), random), random);
        same_texts(group, random, numbers_of(loss), &text, ROOM, &mut seen);
    }
    refused_numbers(group, random, &mut seen);
    seen.each_came(group, &[0, 1, 3, 5, 6, 7, 8, 9, 13, 22]);
}

fn numbers_of(loss: &Loss) -> Numbers {
    (loss.p, loss.k, loss.disk)
}

/// A text by both calls that take one: answers, the slice written to, and all memory around.
fn same_texts(
    group: &mut Group,
    random: &mut Random,
    of: Numbers,
    text: &[u8],
    room: usize,
    seen: &mut Seen,
) -> Option<Vec<u8>> {
    let call = |name: &str| format!("{name}({of:?}, \"{}\", {room})", text.escape_ascii());
    let mut lent = Lent::of(text, random);
    let before = lent.clone();
    let judged = judge_text(of, lent.part());
    group.same(|| call("judge_text"), model::judge_text(of, text), judged);
    let mut out = Lent::noise(room, random);
    let mut wanted = out.clone();
    let got = plain_text(of, lent.part(), out.part());
    group.same(|| call("plain_text"), model::plain_text(of, text, wanted.part()), got);
    group.same_bytes(|| call("plain_text, out"), wanted.whole(), out.whole());
    group.same_bytes(|| call("text, memory"), before.whole(), lent.whole());
    seen.note(judged.answer);
    seen.note(got.answer);
    (got.answer == ACCEPTED).then(|| out.part()[..got.length].to_vec())
}

/// A plan of bytes: the answer, the slice written to, and all memory around.
fn same_writing(
    group: &mut Group,
    random: &mut Random,
    of: Numbers,
    plan: &[u8],
    room: usize,
) -> Written {
    let call = || format!("write_plan({of:?}, {plan:?}, {room})");
    let mut lent = Lent::of(plan, random);
    let before = lent.clone();
    let mut out = Lent::noise(room, random);
    let mut wanted = out.clone();
    let got = write_plan(of, lent.part(), out.part());
    group.same(call, model::write_plan(of, plan, wanted.part()), got);
    group.same_bytes(|| format!("{}, out", call()), wanted.whole(), out.whole());
    group.same_bytes(|| format!("{}, memory", call()), before.whole(), lent.whole());
    got
}

/// Bytes to plain text, read again, written again: no byte changes, on a thread with little stack.
fn round_trip(group: &mut Group, random: &mut Random, of: Numbers, steps: &[Step]) {
    let call = |what: &str| format!("texts of {of:?}, {steps:?}: {what}");
    let plan = bytes_of(steps);
    let mut out = Lent::noise(ROOM, random);
    let written = small_stack::run(|| write_plan(of, &plan, out.part()));
    let text = plain(steps).into_bytes();
    let accepted = Written { answer: ACCEPTED, length: text.len() };
    group.same(|| call("written"), accepted, written);
    group.same_bytes(|| call("plain form"), &text, &out.part()[..written.length]);
    group.same(|| call("read back"), Some(steps.to_vec()), steps_in(of.0, &text));
    let judged = small_stack::run(|| judge_text(of, &text));
    group.same(|| call("judged"), judge_plan(of.0, of.1, of.2, &plan), judged);
    let before = out.clone();
    let again = small_stack::run(|| plain_text(of, &text, out.part()));
    group.same(|| call("written again"), accepted, again);
    group.same_bytes(|| call("no byte changes"), before.whole(), out.whole());
}

/// Accepted and damaged plans of a host, each as bytes and in two forms of text.
fn host_plans(group: &mut Group, random: &mut Random, loss: &Loss, seen: &mut Seen) {
    let of = numbers_of(loss);
    for _ in 0..12 {
        let steps = loss.accepted(random);
        round_trip(group, random, of, &steps);
        let (one, other) = (any_form(&steps, random), any_form(&steps, random));
        let one = same_texts(group, random, of, &one, ROOM, seen);
        let other = same_texts(group, random, of, &other, ROOM, seen);
        group.same(|| format!("plain forms of {of:?}, {steps:?}"), one, other);
        let bytes = damaged_plan(loss, &steps, random);
        same_writing(group, random, of, &bytes, ROOM);
        let damaged = steps_of(&bytes);
        if damaged.iter().all(|step| step.kind <= 1) {
            let text = any_form(&damaged, random);
            same_texts(group, random, of, &text, ROOM, seen);
        }
    }
}

/// Each byte of a text replaced by every other byte; for wide arrays, of the names and two lines.
fn every_byte_in_every_field(group: &mut Group, random: &mut Random, loss: &Loss, seen: &mut Seen) {
    let steps = loss.accepted(random);
    let text = any_form(&steps, random);
    let places: Vec<usize> = match loss.p {
        3 => (0..text.len()).collect(),
        _ => (text.len() - 12..text.len()).collect(),
    };
    for place in places {
        for byte in 0..=255 {
            let mut changed = text.clone();
            changed[place] = byte;
            same_texts(group, random, numbers_of(loss), &changed, ROOM, seen);
        }
    }
}

/// The forms that document 02 names, and those beside them.
fn known_forms(group: &mut Group, random: &mut Random, loss: &Loss, seen: &mut Seen) {
    let steps = loss.accepted(random);
    for texts in [every_number(&steps), odd_lines(&steps), odd_ends(&steps), odd_names(&steps)] {
        for text in texts {
            same_texts(group, random, numbers_of(loss), text.as_bytes(), ROOM, seen);
        }
    }
}

/// Other lengths of the slice, of the plan, and other numbers of lines.
fn other_rooms(group: &mut Group, random: &mut Random, loss: &Loss, seen: &mut Seen) {
    let of = numbers_of(loss);
    let steps = loss.accepted(random);
    let (plan, text) = (bytes_of(&steps), any_form(&steps, random));
    for room in [0, 1, 15, 93, text.len(), plan.len(), 253, 255, 256, 261, 262, 264, 265, 519, 526]
    {
        same_writing(group, random, of, &plan, room);
        same_writing(group, random, of, &plan[1..], room);
        same_texts(group, random, of, &text, room, seen);
        same_texts(group, random, of, &text[1..], room, seen);
    }
    for length in
        [0, 1, plan.len() - 3, plan.len() - 1, plan.len() + 1, plan.len() + 3, 2 * plan.len()]
    {
        let other: Vec<u8> = plan.iter().copied().cycle().take(length).collect();
        same_writing(group, random, of, &other, ROOM);
    }
    for (p, k, lost) in [(3, 3, 0), (5, 5, 1), (31, 31, 32), (of.0, of.0, of.0 + 1)] {
        same_texts(group, random, (p, k, lost), &text, ROOM, seen);
    }
}

/// Refused widths, data disks and disks, with right and wrong texts, plans and slices.
fn refused_numbers(group: &mut Group, random: &mut Random, seen: &mut Seen) {
    for width in numbers::any_widths() {
        for lost in numbers::any_disks(width, width) {
            refused(group, random, (width, width, lost), seen);
        }
        for disks in numbers::any_data_disks(width) {
            for lost in numbers::few_disks(width, disks) {
                refused(group, random, (width, disks, lost), seen);
            }
        }
    }
}

fn refused(group: &mut Group, random: &mut Random, of: Numbers, seen: &mut Seen) {
    let p = numbers::cut(of.0);
    let steps: Vec<Step> = (0..p).map(|row| Step { row, kind: 0, number: row }).collect();
    let (room, other) =
        (*random.pick(&[0, 262, 264]), *random.pick(&["", "row,set,number\n", "x"]));
    same_texts(group, random, of, plain(&steps).as_bytes(), ROOM, seen);
    same_texts(group, random, of, other.as_bytes(), room, seen);
    same_writing(group, random, of, &bytes_of(&steps), ROOM);
    same_writing(group, random, of, other.as_bytes(), room);
}
