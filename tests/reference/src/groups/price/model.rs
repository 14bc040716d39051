//! The price of an accepted plan, counted on the sets that its steps name.

use crate::harness::model::{extra_cell, set_cells, Step};
use crate::harness::plans::Loss;

/// The terms of the formula: t diagonals used; u of them with a surviving
/// extra cell in no other used set; v is 1 if a cell is rebuilt through a
/// diagonal holding it only as extra.
pub fn terms(loss: &Loss, steps: &[Step]) -> (usize, usize, usize) {
    let (p, disk) = (loss.p, loss.disk);
    let mut used: Vec<(usize, usize)> = steps.iter().map(|s| (s.kind, s.number)).collect();
    used.sort();
    used.dedup();
    let diagonals: Vec<usize> = used.iter().filter(|s| s.0 == 1).map(|s| s.1).collect();
    let lone = |i: &&usize| match extra_cell(p, p, **i) {
        Some(cell) if cell.1 != disk => {
            let others = used.iter().filter(|set| **set != (1, **i));
            others.filter(|set| set_cells(p, p, set.0, set.1).contains(&cell)).count() == 0
        }
        _ => false,
    };
    let through_extra = |step: &Step| {
        let extra = extra_cell(p, p, step.number);
        step.kind == 1 && extra == Some((step.row, disk))
    };
    let u = diagonals.iter().filter(lone).count();
    let v = steps.iter().any(through_extra) as usize;
    (diagonals.len(), u, v)
}
