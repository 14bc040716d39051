//! The sets as lists of cells. Data disks k to p - 1 are absent: no set has a cell of theirs.

/// A cell: row, then disk.
pub type Cell = (usize, usize);

/// The cells of R i.
pub fn row_set(k: usize, i: usize) -> Vec<Cell> {
    (0..=k).map(|c| (i, c)).collect()
}

/// The extra cell of D i, if it has one and its disk is there.
pub fn extra_cell(p: usize, k: usize, i: usize) -> Option<Cell> {
    let extra = (i > 0).then(|| (p - 1 - i, p - (2 * i) % p));
    extra.filter(|cell| cell.1 < k)
}

/// The cells of D i, the extra cell last.
pub fn diagonal_set(p: usize, k: usize, i: usize) -> Vec<Cell> {
    let mut cells: Vec<Cell> = (0..k).map(|c| ((i + c) % p, c)).collect();
    cells.push((i, k + 1));
    cells.extend(extra_cell(p, k, i));
    cells
}

/// The cells of a set; kind 0 is a row set, kind 1 a diagonal set.
pub fn set_cells(p: usize, k: usize, kind: usize, number: usize) -> Vec<Cell> {
    match kind {
        0 => row_set(k, number),
        _ => diagonal_set(p, k, number),
    }
}
