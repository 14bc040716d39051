//! The rebuild of one lost disk by the balanced plan: the checks of the rebuild by our plan, with its cells.

use super::calls::rebuild_balanced;
use super::model;
use crate::groups::rebuild_one::checks::{check, Rebuild};
use crate::harness::model::balanced_steps;
use crate::harness::{Group, Setting};

const REBUILD_BALANCED: Rebuild = Rebuild {
    name: "rebuild_balanced",
    call: rebuild_balanced,
    model: model::rebuild_balanced,
    steps: balanced_steps,
};

pub fn run(setting: &mut Setting, group: &mut Group) {
    check(&REBUILD_BALANCED, setting, group);
}
