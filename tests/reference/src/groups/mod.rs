//! The groups of comparisons.
//!
//! A group is a folder: `calls` makes its calls of the library, `model` is the second
//! implementation of them, `checks` compares the two. `GROUPS` names those that run.

use crate::harness::runner::Check;

pub mod array_states;
pub mod balanced_plan;
pub mod billing;
pub mod encode;
pub mod fewest_plan;
pub mod image_layout;
pub mod judge;
pub mod parity_server;
pub mod parity_sets;
pub mod plan_list;
pub mod plan_texts;
pub mod planner;
pub mod price;
pub mod printed_plan;
pub mod read_list;
pub mod rebuild_balanced;
pub mod rebuild_by_plan;
pub mod rebuild_cells;
pub mod rebuild_one;
pub mod rebuild_runs;
pub mod rebuild_tested;
pub mod rebuild_two;
pub mod relief_plan;
pub mod scrub;
pub mod space;
pub mod starred_examples;
pub mod unit_film;
pub mod unit_opening;
pub mod unit_sums;
pub mod update;
pub mod vectors;

macro_rules! groups {
    ($($folder:ident,)*) => {
        &[$((stringify!($folder), $folder::checks::run),)*]
    };
}

/// The groups that run, in their order, by their folders. One that is not named here is compiled
/// and makes no call.
pub const GROUPS: &[(&str, Check)] = groups! {
    planner,
    balanced_plan,
    relief_plan,
    fewest_plan,
    read_list,
    parity_sets,
    judge,
    plan_list,
    price,
    starred_examples,
    printed_plan,
    plan_texts,
    space,
    image_layout,
    encode,
    scrub,
    rebuild_one,
    rebuild_balanced,
    rebuild_by_plan,
    rebuild_tested,
    rebuild_two,
    rebuild_cells,
    update,
    unit_sums,
    unit_opening,
    unit_film,
    parity_server,
    rebuild_runs,
    billing,
    array_states,
    vectors,
};
