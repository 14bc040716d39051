//! Runs the groups one after the other.

use std::path::{Path, PathBuf};

use super::{Group, Random};

/// What a group works with.
pub struct Setting {
    /// The plan program.
    pub program: PathBuf,
    pub random: Random,
}

/// What runs the comparisons of a group.
pub type Check = fn(&mut Setting, &mut Group);

/// Runs every group, named by its folder; true if all comparisons agree. Nothing is skipped on any machine.
pub fn run_all(groups: &[(&str, Check)], program: &Path, seed: u64) -> bool {
    let mut passed = 0;
    for &(folder, check) in groups {
        passed += usize::from(run_group(&folder.replace('_', " "), check, program, seed));
    }
    match groups.len() - passed {
        0 => println!("reference: {passed} passed, 0 skipped"),
        wrong => println!("reference: {wrong} of {} groups FAILED", groups.len()),
    }
    passed == groups.len()
}

/// Runs one group; its name keeps its random numbers apart from those of others.
fn run_group(name: &str, check: Check, program: &Path, seed: u64) -> bool {
    let random = Random::new(seed, name);
    let mut setting = Setting { program: program.to_path_buf(), random };
    let mut group = Group::new(name);
    check(&mut setting, &mut group);
    group.finish()
}
