//! Missing cells, updated cells, and changes that a scrub finds.

use super::file::{cell_of, cells_with_bytes, Line};
use crate::groups::rebuild_cells::calls::rebuild_cells;
use crate::groups::scrub::calls::scrub_stripe;
use crate::groups::scrub::model::found;
use crate::groups::update::calls::update_cell;
use crate::harness::answer::{Answer, ACCEPTED};
use crate::harness::model::{add, cell_place};
use crate::harness::{Group, Lent, Random};

/// Missing cells come back, or the call is refused and nothing changes.
pub fn cells(group: &mut Group, random: &mut Random, line: &Line) {
    let shape = line.shape;
    let mut marks = vec![0; shape.width * (shape.disks + 2)];
    let mut stripe = Lent::of(&line.stripe, random);
    for (row, disk) in line.words[1..].iter().map(|word| cell_of(word)) {
        marks[disk * shape.width + row] = 1 + random.below(255) as u8;
        random.fill(&mut stripe.part()[cell_place(shape, (row, disk))]);
    }
    let determined = line.words[0] == "determined";
    let wanted = if determined { line.stripe.to_vec() } else { stripe.part().to_vec() };
    let answer = Answer::of(if determined { 0 } else { 23 });
    let got = rebuild_cells(shape, &marks, stripe.part());
    group.same(|| line.name("rebuild_cells"), answer, got);
    group.same_stripe(|| line.name("rebuild_cells"), shape, &wanted, stripe.part());
}

/// A cell and its parity cells are as the line says, all others as they were.
pub fn update(group: &mut Group, random: &mut Random, line: &Line) {
    let cells = cells_with_bytes(&line.words[1..]);
    let mut wanted = line.stripe.to_vec();
    for (cell, bytes) in &cells {
        wanted[cell_place(line.shape, *cell)].copy_from_slice(bytes);
    }
    let (cell, new) = &cells[0];
    let mut stripe = Lent::of(&line.stripe, random);
    let got = update_cell(line.shape, *cell, stripe.part(), new);
    group.same(|| line.name("update_cell"), ACCEPTED, got);
    group.same_stripe(|| line.name("update_cell"), line.shape, &wanted, stripe.part());
}

pub fn scrub(group: &mut Group, random: &mut Random, line: &Line) {
    let mut stripe = Lent::of(&line.stripe, random);
    for (cell, bytes) in cells_with_bytes(&line.words[2..]) {
        add(&mut stripe.part()[cell_place(line.shape, cell)], &bytes);
    }
    let wanted = match line.words[1] {
        "clean" => found(0, 0),
        "more" => found(2, 0),
        _ => found(1, line.count(1)),
    };
    let got = scrub_stripe(line.shape, stripe.part());
    group.same(|| line.name("scrub_stripe"), wanted, got);
}
