//! Updates of one cell, and changes that a scrub finds.

use super::lines::{bytes, small, with_bytes, Lines};
use crate::groups::scrub::model::scrub_stripe;
use crate::groups::update::model::{parity_cells, update_cell};
use crate::harness::model::{add, cell_place, extra_cell, Cell};
use crate::harness::{Random, Shape};

pub fn update() -> String {
    let mut lines = Lines::new("update");
    for shape in small() {
        let Shape { width: p, disks: k, .. } = shape;
        let mut random = lines.array(shape);
        let stripe = lines.dirty(shape, &mut random);
        let extra = (1..p).find_map(|i| extra_cell(p, k, i));
        let others = [(0, 0), (p - 1, k - 1), (random.below(p), random.below(k))];
        for cell in others.into_iter().chain(extra) {
            let new = bytes(&mut random, shape.cell_size);
            let mut after = stripe.clone();
            update_cell(shape, cell, &mut after, &new);
            let changed = parity_cells(shape, cell).into_iter();
            let changed =
                changed.map(|parity| with_bytes(parity, &after[cell_place(shape, parity)]));
            let words: Vec<String> =
                std::iter::once(with_bytes(cell, &new)).chain(changed).collect();
            lines.add(format!("update {}", words.join(" ")));
        }
    }
    lines.finish()
}

/// Bytes to XOR into cells.
type Change = Vec<(Cell, Vec<u8>)>;

pub fn scrub() -> String {
    let mut lines = Lines::new("scrub");
    for shape in small() {
        let mut random = lines.array(shape);
        let stripe = lines.clean(shape, &mut random);
        lines.add(line(shape, &stripe, Vec::new()));
        for disk in shape.all_disks() {
            let change = vec![some_change(shape, disk, &mut random)];
            lines.add(line(shape, &stripe, change));
        }
        for change in several(shape, &mut random) {
            lines.add(line(shape, &stripe, change));
        }
    }
    lines.finish()
}

/// A byte other than 0 for a cell of the disk.
fn some_change(shape: Shape, disk: usize, random: &mut Random) -> (Cell, Vec<u8>) {
    let byte = 1 + random.below(255) as u8;
    ((random.below(shape.width), disk), vec![byte; shape.cell_size])
}

/// Changes on two disks, and a data cell changed with its parity cells: with all of them the stripe
/// stays clean, with all but the data cell that disk explains it.
fn several(shape: Shape, random: &mut Random) -> Vec<Change> {
    let disks = shape.disks + 2;
    let first = random.below(disks);
    let second = (first + 1 + random.below(disks - 1)) % disks;
    let two = vec![some_change(shape, first, random), some_change(shape, second, random)];
    let (cell, byte) = some_change(shape, random.below(shape.disks), random);
    let parity: Change =
        parity_cells(shape, cell).into_iter().map(|parity| (parity, byte.clone())).collect();
    let whole = std::iter::once((cell, byte)).chain(parity.clone()).collect();
    vec![two, whole, parity]
}

/// The line of a change, with the second implementation's verdict.
fn line(shape: Shape, stripe: &[u8], change: Change) -> String {
    let mut changed = stripe.to_vec();
    let mut words = Vec::new();
    for (cell, bytes) in &change {
        add(&mut changed[cell_place(shape, *cell)], bytes);
        words.push(with_bytes(*cell, bytes));
    }
    let found = scrub_stripe(shape, &changed);
    let verdict = match found.verdict {
        0 => "clean".to_string(),
        1 => found.disk.to_string(),
        _ => "more".to_string(),
    };
    std::iter::once(format!("scrub {verdict}")).chain(words).collect::<Vec<_>>().join(" ")
}
