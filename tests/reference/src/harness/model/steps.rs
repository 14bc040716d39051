//! The steps of a plan.

use std::collections::HashSet;

use super::{set_cells, Cell};

/// One step of a plan; kind 0 is a row set, kind 1 a diagonal set.
#[derive(Clone, Copy, Debug, PartialEq)]
pub struct Step {
    pub row: usize,
    pub kind: usize,
    pub number: usize,
}

/// The rows of the lost disk that a set holds.
pub fn lost_rows(p: usize, k: usize, disk: usize, kind: usize, number: usize) -> Vec<usize> {
    let cells = set_cells(p, k, kind, number);
    cells.iter().filter(|cell| cell.1 == disk).map(|cell| cell.0).collect()
}

/// The different surviving cells in the sets used.
pub fn cells_read(p: usize, k: usize, disk: usize, steps: &[Step]) -> HashSet<Cell> {
    let used = steps.iter().flat_map(|step| set_cells(p, k, step.kind, step.number));
    used.filter(|cell| cell.1 != disk).collect()
}

/// Steps from bytes, three for each.
pub fn steps_of(plan: &[u8]) -> Vec<Step> {
    let step = |b: &[u8]| Step { row: b[0] as usize, kind: b[1] as usize, number: b[2] as usize };
    plan.chunks_exact(3).map(step).collect()
}

/// Steps as bytes, three for each.
pub fn bytes_of(steps: &[Step]) -> Vec<u8> {
    let bytes = |step: &Step| [step.row as u8, step.kind as u8, step.number as u8];
    steps.iter().flat_map(bytes).collect()
}
