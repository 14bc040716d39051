//! Read lists, and plans as texts with the judge's answers.

use super::lines::{escaped, Lines};
use crate::groups::plan_texts::forms::{any_form, damaged as damaged_text};
use crate::groups::plan_texts::model::{judge_text, plain, plain_text, ROOM};
use crate::harness::model::{balanced_steps, cells_read, fewest_steps, our_steps, steps_of, Step};
use crate::harness::plans::{damaged, Loss};
use crate::harness::{arrays, Random};

/// Plans for each array.
const ACCEPTED: usize = 2;
const DAMAGED: usize = 5;

pub fn lists() -> String {
    let mut lines = Lines::new("lists");
    for (p, k) in arrays::every() {
        lines.plain_array(p, k);
        for disk in 0..k + 2 {
            lines.add(list("own", (p, k, disk), &our_steps(p, k, disk)));
            lines.add(list("balanced", (p, k, disk), &balanced_steps(p, k, disk)));
        }
        for disk in [0, k / 2] {
            lines.add(list("fewest", (p, k, disk), &fewest_steps(p, k, disk)));
        }
    }
    lines.finish()
}

fn list(name: &str, (p, k, disk): (usize, usize, usize), steps: &[Step]) -> String {
    let read = cells_read(p, k, disk, steps);
    let word = |c: usize| (0..p).filter(|i| read.contains(&(*i, c))).map(|i| 1u32 << i).sum();
    let words: Vec<String> = (0..k + 2).map(word).map(|word: u32| format!("{word:x}")).collect();
    format!("{name} {disk} {} {}", read.len(), words.join(" "))
}

pub fn plans() -> String {
    let mut lines = Lines::new("plans");
    for (p, k) in arrays::every() {
        let mut random = lines.plain_array(p, k);
        let ours = random.below(k + 2);
        lines.add(judged((p, k, ours), plain(&our_steps(p, k, ours)).as_bytes()));
        for _ in 0..ACCEPTED {
            let loss = Loss::new(p, k, random.below(k + 2));
            let text = any_form(&loss.accepted(&mut random), &mut random);
            lines.add(judged((p, k, loss.disk), &text));
        }
        for n in 0..DAMAGED {
            let loss = Loss::new(p, k, random.below(k + 2));
            let text = damaged_plan(&loss, n, &mut random);
            lines.add(judged((p, k, loss.disk), &text));
        }
    }
    lines.finish()
}

/// A text of a damaged plan, or once in five a damaged text.
fn damaged_plan(loss: &Loss, n: usize, random: &mut Random) -> Vec<u8> {
    let steps = loss.accepted(random);
    if n == 0 {
        return damaged_text(&any_form(&steps, random), random);
    }
    let mut bytes = damaged(loss, &steps, random);
    bytes.chunks_exact_mut(3).for_each(|step| step[1] %= 2); // a text has no other kinds
    any_form(&steps_of(&bytes), random)
}

/// The line of a text, with the second implementation's answer.
fn judged(numbers: (usize, usize, usize), text: &[u8]) -> String {
    let (disk, judged) = (numbers.2, judge_text(numbers, text));
    if judged.answer.refusal != 0 {
        let (number, step) = (judged.answer.refusal, judged.answer.place);
        return format!("refused {disk} {number} {step} {}", escaped(text));
    }
    let mut room = [0; ROOM];
    let length = plain_text(numbers, text, &mut room).length;
    format!("accepted {disk} {} {} {}", judged.reads, escaped(text), escaped(&room[..length]))
}
