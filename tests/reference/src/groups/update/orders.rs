//! Two updates of a stripe: of different cells in both orders, and of one cell.

use super::calls::update_cell;
use super::checks::data_cells;
use crate::harness::answer::ACCEPTED;
use crate::harness::model::{diagonal_set, extra_cell, row_set, stripe_length, Cell};
use crate::harness::stripes::clean_stripe;
use crate::harness::{Group, Lent, Random, Shape};

pub fn run(group: &mut Group, random: &mut Random, shape: Shape) {
    for cell in data_cells(shape) {
        let clean = clean_stripe(random, shape);
        let dirty = Lent::noise(stripe_length(shape), random);
        for stripe in [clean, dirty] {
            twice(group, random, shape, cell, stripe);
        }
    }
    every_order(group, random, shape);
}

/// A cell updated twice is as the second update alone leaves it.
fn twice(group: &mut Group, random: &mut Random, shape: Shape, cell: Cell, before: Lent) {
    let [mut first, mut second] = [0; 2].map(|_| Lent::noise(shape.cell_size, random));
    let (mut both, mut alone) = (before.clone(), before);
    let answers = [
        update_cell(shape, cell, both.part(), first.part()),
        update_cell(shape, cell, both.part(), second.part()),
        update_cell(shape, cell, alone.part(), second.part()),
    ];
    let call = || format!("update_cell({shape:?}, {cell:?}), twice");
    group.same(call, [ACCEPTED; 3], answers);
    group.same_stripe(call, shape, alone.whole(), both.whole());
}

/// Two cells that share P, that share Q, and an extra cell with a cell of each of its diagonals: every pair of the
/// widths up to 7, one pair a set of the others; and pairs at random.
fn every_order(group: &mut Group, random: &mut Random, shape: Shape) {
    let Shape { width: p, disks: k, .. } = shape;
    for i in 0..p {
        pairs(group, random, shape, row_set(k, i), "sharing P");
        pairs(group, random, shape, diagonal_set(p, k, i), "sharing Q");
    }
    for extra in (1..p).filter_map(|i| extra_cell(p, k, i)) {
        for i in (0..p).filter(|i| diagonal_set(p, k, *i).contains(&extra)) {
            let others = diagonal_set(p, k, i).into_iter();
            let others: Vec<Cell> = others.filter(|(r, c)| *c < k && (*r, *c) != extra).collect();
            let pair = [extra, *random.pick(&others)];
            both_orders(group, random, shape, pair, "an extra cell");
        }
    }
    let cells = data_cells(shape);
    for _ in 0..p {
        let pair = [*random.pick(&cells), *random.pick(&cells)];
        if pair[0] != pair[1] {
            both_orders(group, random, shape, pair, "any two");
        }
    }
}

/// The pairs of a set's data cells, or one of them.
fn pairs(group: &mut Group, random: &mut Random, shape: Shape, mut set: Vec<Cell>, name: &str) {
    set.retain(|(_, disk)| *disk < shape.disks);
    let all = (1..set.len()).flat_map(|i| (0..i).map(move |j| (i, j)));
    let mut all: Vec<[Cell; 2]> = all.map(|(i, j)| [set[i], set[j]]).collect();
    if shape.width > 7 {
        all = vec![*random.pick(&all)];
    }
    for pair in all {
        both_orders(group, random, shape, pair, name);
    }
}

/// Two updates leave the same stripe in both orders, a clean one and a dirty one.
fn both_orders(group: &mut Group, random: &mut Random, shape: Shape, pair: [Cell; 2], name: &str) {
    let clean = clean_stripe(random, shape);
    let dirty = Lent::noise(stripe_length(shape), random);
    let new = [0; 2].map(|_| Lent::noise(shape.cell_size, random));
    for before in [clean, dirty] {
        let mut left = [before.clone(), before];
        for (stripe, order) in left.iter_mut().zip([[0, 1], [1, 0]]) {
            for n in order {
                let got = update_cell(shape, pair[n], stripe.part(), new[n].clone().part());
                group.same(|| format!("update_cell({shape:?}, {:?})", pair[n]), ACCEPTED, got);
            }
        }
        let call = || format!("update_cell({shape:?}), both orders of {pair:?}, {name}");
        group.same_stripe(call, shape, left[0].whole(), left[1].whole());
    }
}
