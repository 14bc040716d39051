//! Compares the library and the plan program with a second implementation.
//!
//! Arguments: the path of the plan program, then a seed if wanted, then groups if not all are.

use std::path::PathBuf;
use std::process::ExitCode;

use reference::groups::GROUPS;
use reference::harness::runner::{run_all, Check};

const SEED: u64 = 20_000_831;

fn main() -> ExitCode {
    let words: Vec<String> = std::env::args().skip(1).collect();
    let Some((program, seed, names)) = arguments(&words) else {
        eprintln!("usage: reference PLAN_PROGRAM [SEED] [GROUP...]");
        return ExitCode::from(2);
    };
    if let Some(unknown) = names.iter().find(|name| !GROUPS.iter().any(|group| group.0 == **name)) {
        let known: Vec<&str> = GROUPS.iter().map(|group| group.0).collect();
        eprintln!("reference: no group {unknown}; there are {}", known.join(", "));
        return ExitCode::from(2);
    }
    let wanted =
        |group: &&(&str, Check)| names.is_empty() || names.iter().any(|name| group.0 == name);
    let groups: Vec<(&str, Check)> = GROUPS.iter().filter(wanted).copied().collect();
    let agree = run_all(&groups, &program, seed);
    ExitCode::from(if agree { 0 } else { 1 })
}

/// The plan program's path, the seed and the names of groups.
fn arguments(words: &[String]) -> Option<(PathBuf, u64, &[String])> {
    let (program, rest) = words.split_first()?;
    let seed = rest.first().and_then(|word| word.parse().ok());
    let names = &rest[usize::from(seed.is_some())..];
    Some((PathBuf::from(program), seed.unwrap_or(SEED), names))
}
