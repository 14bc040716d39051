//! Every line of the vectors, and that the files hold what they should.

use std::collections::{BTreeMap, BTreeSet};

use super::file::{lines, Line};
use super::{changes, large, plans, refusals, stripes};
use crate::harness::{arrays, Group, Random, Setting};

/// How many lines of each sort a file has at the least.
const LEAST: [(&str, &str, usize); 25] = [
    ("encode.txt", "stripe", 172),
    ("one.txt", "one", 2_042),
    ("one.txt", "own", 2_042),
    ("one.txt", "balanced", 2_042),
    ("two.txt", "two", 17_304),
    ("cells.txt", "determined", 900),
    ("cells.txt", "undetermined", 400),
    ("update.txt", "update", 500),
    ("scrub.txt", "scrub", 2_600),
    ("lists.txt", "own", 2_042),
    ("lists.txt", "balanced", 2_042),
    ("lists.txt", "fewest", 296),
    ("plans.txt", "accepted", 500),
    ("plans.txt", "refused", 500),
    ("refusals.txt", "refused", 500),
    ("large.txt", "seed", 10),
    ("large.txt", "data", 10),
    ("large.txt", "parity", 10),
    ("large.txt", "own", 40),
    ("large.txt", "two", 30),
    ("jerasure.txt", "stripe", 148),
    ("jerasure.txt", "two", 17_304),
    ("two.txt", "stripe", 148),
    ("cells.txt", "stripe", 148),
    ("update.txt", "dirty", 148),
];

/// Files that need not have every array.
const PARTIAL: [&str; 2] = ["refusals.txt", "large.txt"];

pub fn run(setting: &mut Setting, group: &mut Group) {
    let lines = lines();
    complete(group, &lines);
    let mut made = large::Made::default();
    for line in &lines {
        match line.file {
            "large.txt" => made.compare(group, line),
            _ => compare(group, &mut setting.random, line),
        }
    }
}

/// Every file has every array, and as many lines of each sort as it should.
fn complete(group: &mut Group, lines: &[Line]) {
    let mut found: BTreeMap<&str, BTreeSet<(usize, usize)>> = BTreeMap::new();
    let mut counts: BTreeMap<(&str, &str), usize> = BTreeMap::new();
    for line in lines {
        found.entry(line.file).or_default().insert((line.shape.width, line.shape.disks));
        *counts.entry((line.file, line.words[0])).or_default() += 1;
    }
    let every: BTreeSet<(usize, usize)> = arrays::every().into_iter().collect();
    for (file, arrays) in found.into_iter().filter(|(file, _)| !PARTIAL.contains(file)) {
        group.same(|| format!("the arrays of conformance/vectors/{file}"), &every, &arrays);
    }
    for (file, word, least) in LEAST {
        let count = counts.get(&(file, word)).copied().unwrap_or(0);
        let call = || {
            format!(
                "conformance/vectors/{file} has at least {least} lines `{word}`, and has {count}"
            )
        };
        group.same(call, true, count >= least);
    }
}

fn compare(group: &mut Group, random: &mut Random, line: &Line) {
    match (line.file, line.words[0]) {
        (_, "array" | "dirty") => (),
        (_, "stripe") => stripes::encoded(group, random, line),
        ("one.txt", "one") => stripes::one(group, random, line),
        ("one.txt", "own" | "balanced") => stripes::by_plan(group, random, line),
        (_, "two") => stripes::two(group, random, line),
        (_, "determined" | "undetermined") => changes::cells(group, random, line),
        (_, "update") => changes::update(group, random, line),
        (_, "scrub") => changes::scrub(group, random, line),
        ("lists.txt", "own" | "balanced" | "fewest") => plans::list(group, line),
        (_, "accepted") => plans::accepted(group, line),
        ("plans.txt", "refused") => plans::refused(group, line),
        (_, "refused") => refusals::refused(group, line),
        (_, word) => group.same(|| line.name("a known word"), "", word),
    }
}
