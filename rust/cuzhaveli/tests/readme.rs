//! The picture of a plan in README.md is that of the library.

use cuzhaveli::{Set, Shape};

const P: usize = 5;
const LOST: usize = 1;

/// Whether a set of an array with as many data disks as rows holds a cell.
fn holds(set: Set, row: usize, disk: usize) -> bool {
    match set {
        Set::Row(i) => row == i as usize && disk <= P,
        Set::Diagonal(i) => {
            let i = i as usize;
            let ordinary = disk < P && row == (i + disk) % P;
            let extra = i > 0 && row == P - 1 - i && disk == P - 2 * i % P;
            ordinary || extra || (row == i && disk == P + 1)
        }
    }
}

#[test]
fn the_picture_is_the_plan() {
    let readme = concat!(env!("CARGO_MANIFEST_DIR"), "/../../README.md");
    let readme = std::fs::read_to_string(readme).expect("README.md of the repository");
    let is_row = |line: &&str| line.contains(" x ") && !line.contains("lost");
    let is_share = |line: &&str| line.trim_start().starts_with("read ");
    let rows: Vec<Vec<&str>> = readme
        .lines()
        .filter(is_row)
        .filter(|line| !is_share(line))
        .map(|line| line.split_whitespace().collect())
        .collect();
    let shape = Shape::new(P, P, 1).unwrap();
    let (plan, list) = (shape.plan(LOST).unwrap(), shape.read_list(LOST).unwrap());
    assert_eq!(rows.len(), P, "the picture has a line for each row");
    for step in plan.steps() {
        let (kind, number) = match step.set {
            Set::Row(i) => ("R", i),
            Set::Diagonal(i) => ("D", i),
        };
        let shown = &rows[step.row as usize];
        assert_eq!(shown[P + 3..], [kind, &number.to_string()], "the set of row {}", step.row);
    }
    for (row, shown) in rows.iter().enumerate() {
        for disk in 0..P + 2 {
            let by = |kind: fn(Set) -> bool| {
                plan.steps().any(|step| kind(step.set) && holds(step.set, row, disk))
            };
            let by_row = by(|set| matches!(set, Set::Row(_)));
            let by_diagonal = by(|set| matches!(set, Set::Diagonal(_)));
            let mark = match (disk == LOST, by_row, by_diagonal) {
                (true, ..) => "x",
                (_, true, true) => "#",
                (_, true, false) => "-",
                (_, false, true) => "/",
                (_, false, false) => ".",
            };
            assert_eq!(shown[disk + 1], mark, "row {row}, disk {disk}");
            assert_eq!(list.contains(row, disk), !"x.".contains(mark), "row {row}, disk {disk}");
        }
    }
    let shares = readme.lines().filter(is_row).find(is_share).expect("the share of each disk");
    for (disk, share) in shares.split_whitespace().skip(1).take(P + 2).enumerate() {
        let given = list.share(disk).to_string();
        assert_eq!(share, if disk == LOST { "x" } else { &given[..] }, "the share of disk {disk}");
    }
    let told = format!("{} of {} surviving cells read", plan.reads(), P * (P + 1));
    assert!(readme.contains(&told), "README.md says '{told}'");
}
