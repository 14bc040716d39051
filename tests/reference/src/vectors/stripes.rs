//! Encoded stripes, one lost disk, two lost disks.

use super::lines::{hex, small, small_and_longer, Lines};
use crate::groups::rebuild_one::model::follow;
use crate::harness::model::{balanced_steps, our_steps, Step};
use crate::harness::Shape;

/// The steps of a plan for width, data disks and lost disk.
type Planner = fn(usize, usize, usize) -> Vec<Step>;

const PLANNERS: [(&str, Planner); 2] = [("own", our_steps), ("balanced", balanced_steps)];

pub fn encode() -> String {
    let mut lines = Lines::new("encode");
    for shape in small_and_longer() {
        let mut random = lines.array(shape);
        lines.clean(shape, &mut random);
    }
    lines.finish()
}

pub fn one() -> String {
    let mut lines = Lines::new("one");
    for shape in small() {
        let mut random = lines.array(shape);
        lines.clean(shape, &mut random);
        for disk in shape.all_disks() {
            lines.add(format!("one {disk}"));
        }
        let stripe = lines.dirty(shape, &mut random);
        for (name, planner) in PLANNERS {
            by_plan(&mut lines, shape, &stripe, name, planner);
        }
    }
    lines.finish()
}

/// What a planner's steps make of each disk.
fn by_plan(lines: &mut Lines, shape: Shape, stripe: &[u8], name: &str, planner: Planner) {
    for disk in shape.all_disks() {
        let steps = planner(shape.width, shape.disks, disk);
        lines.add(format!("{name} {disk} {}", hex(&follow(shape, disk, stripe, &steps))));
    }
}

pub fn two() -> String {
    let mut lines = Lines::new("two");
    for shape in small() {
        let mut random = lines.array(shape);
        lines.clean(shape, &mut random);
        for b in shape.all_disks() {
            for a in 0..b {
                lines.add(format!("two {a} {b}"));
            }
        }
    }
    lines.finish()
}
