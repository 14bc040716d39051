//! Every set of every width with several numbers of data disks, seen through the judge: each possible first
//! step, followed by the steps that take the other rows.

use crate::groups::judge::calls::judge_plan;
use crate::groups::judge::model;
use crate::harness::model::{bytes_of, Step};
use crate::harness::plans::Loss;
use crate::harness::{Group, Setting};

pub fn run(_: &mut Setting, group: &mut Group) {
    for loss in Loss::some() {
        for kind in 0..2 {
            for number in 0..loss.p {
                for row in 0..loss.p {
                    first_step(group, &loss, Step { row, kind, number });
                }
            }
        }
    }
}

fn first_step(group: &mut Group, loss: &Loss, first: Step) {
    let (p, k, disk) = (loss.p, loss.k, loss.disk);
    let plan = bytes_of(&loss.started_with(first));
    let got = judge_plan(p, k, disk, &plan);
    let expected = model::judge_plan(p, k, disk, &plan);
    group.same(|| format!("judge_plan({p}, {k}, {disk}, {plan:?})"), expected, got);
}
