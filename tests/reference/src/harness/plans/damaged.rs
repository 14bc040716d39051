//! Plans damaged in many ways.

use super::Loss;
use crate::harness::model::{bytes_of, Step};
use crate::harness::Random;

/// The bytes of a plan, damaged in one of several ways.
pub fn damaged(loss: &Loss, steps: &[Step], random: &mut Random) -> Vec<u8> {
    let mut steps = steps.to_vec();
    match random.below(8) {
        0 => swap_steps(&mut steps, random),
        1 => repeat_step(&mut steps, random),
        2 => too_early(loss, &mut steps, random),
        3 => return (0..3 * loss.p).map(|_| random.byte()).collect(),
        4 => return bytes_in_range(loss.p, random),
        5 => return another_choice(loss, &steps, random),
        6 => {
            swap_steps(&mut steps, random);
            repeat_step(&mut steps, random);
        }
        _ => (),
    }
    let mut bytes = bytes_of(&steps);
    if random.once_in(2) {
        change_field(loss.p, &mut bytes, random);
    }
    bytes
}

fn swap_steps(steps: &mut [Step], random: &mut Random) {
    let (a, b) = (random.below(steps.len()), random.below(steps.len()));
    steps.swap(a, b);
}

fn repeat_step(steps: &mut [Step], random: &mut Random) {
    let (from, to) = (random.below(steps.len()), random.below(steps.len()));
    steps[to] = steps[from];
}

/// Puts a step that needs another row in place of that row's step or before it.
fn too_early(loss: &Loss, steps: &mut [Step], random: &mut Random) {
    let needing = loss.needing();
    if needing.is_empty() {
        return swap_steps(steps, random);
    }
    let choice = random.pick(&needing);
    let needed = steps.iter().position(|step| choice.needs.contains(&step.row));
    let place = random.below(needed.expect("a step for every row") + 1);
    let own = steps.iter().position(|step| step.row == choice.step.row);
    steps.swap(place, own.expect("a step for every row"));
    steps[place] = choice.step;
}

/// Random steps whose fields are all in range.
fn bytes_in_range(p: usize, random: &mut Random) -> Vec<u8> {
    let mut bytes = Vec::new();
    for _ in 0..p {
        let fields = [random.below(p), random.below(2), random.below(p)];
        bytes.extend(fields.map(|field| field as u8));
    }
    bytes
}

/// A random set for each row, out of those that hold it; the order is left alone.
fn another_choice(loss: &Loss, steps: &[Step], random: &mut Random) -> Vec<u8> {
    let other = |step: &Step| random.pick(&loss.choices[step.row]).step;
    let steps: Vec<Step> = steps.iter().map(other).collect();
    bytes_of(&steps)
}

fn change_field(p: usize, bytes: &mut [u8], random: &mut Random) {
    let place = random.below(bytes.len());
    bytes[place] = match random.below(5) {
        0 => random.byte(),
        1 => p as u8,
        2 => bytes[place] ^ 1,
        3 => bytes[place].wrapping_sub(1),
        _ => random.below(p) as u8,
    };
}
