//! Missing cells: on a disk and beside it, on two, anywhere, and ones that nothing determines.

use super::lines::{name, small, Lines};
use crate::groups::rebuild_cells::model::rebuild_cells;
use crate::groups::update::model::parity_cells;
use crate::harness::model::Cell;
use crate::harness::{Random, Shape};

/// Patterns for each array.
const PATTERNS: usize = 10;

pub fn cells() -> String {
    let mut lines = Lines::new("cells");
    for shape in small() {
        let mut random = lines.array(shape);
        let stripe = lines.clean(shape, &mut random);
        for n in 0..PATTERNS {
            let cells = pattern(shape, n, &mut random);
            let word =
                if is_rebuilt(shape, &stripe, &cells) { "determined" } else { "undetermined" };
            let names: Vec<String> = cells.into_iter().map(name).collect();
            lines.add(format!("{word} {}", names.join(" ")));
        }
    }
    lines.finish()
}

/// Whether the second implementation gives the cells back.
fn is_rebuilt(shape: Shape, stripe: &[u8], cells: &[Cell]) -> bool {
    let mut marks = vec![0; shape.width * (shape.disks + 2)];
    let mut rebuilt = stripe.to_vec();
    for &(row, disk) in cells {
        marks[disk * shape.width + row] = 1;
        rebuilt[disk * shape.width + row] ^= 0xA5;
    }
    let done = rebuild_cells(shape, &marks, &mut rebuilt).refusal == 0;
    assert!(!done || rebuilt == stripe, "determined cells come back");
    done
}

fn pattern(shape: Shape, n: usize, random: &mut Random) -> Vec<Cell> {
    let p = shape.width;
    let disk = random.below(shape.disks + 2);
    let mut cells = match n {
        0 => any(shape, 1, random),
        1 | 2 => column(shape, disk, any(shape, 2, random)),
        3 => column(shape, disk, any(shape, 1 + random.below(p), random)),
        4 => column(shape, disk, column(shape, (disk + 1) % (shape.disks + 2), Vec::new())),
        5 => {
            let data = (random.below(p), random.below(shape.disks));
            std::iter::once(data).chain(parity_cells(shape, data)).collect()
        }
        6 => (0..=2 * p).map(|place| (place % p, place / p)).collect(),
        _ => any(shape, 3 + random.below(2 * p - 3), random),
    };
    cells.sort_by_key(|&(row, disk)| (disk, row));
    cells.dedup();
    cells
}

fn any(shape: Shape, count: usize, random: &mut Random) -> Vec<Cell> {
    (0..count).map(|_| (random.below(shape.width), random.below(shape.disks + 2))).collect()
}

/// A whole disk, and these cells.
fn column(shape: Shape, disk: usize, cells: Vec<Cell>) -> Vec<Cell> {
    (0..shape.width).map(|row| (row, disk)).chain(cells).collect()
}
