//! Our plan for one lost disk.

use super::Step;

/// The rows of data disk f that take a diagonal.
fn diagonal_rows(p: usize, f: usize) -> Vec<bool> {
    let mut takes: Vec<Option<bool>> = vec![None; p];
    takes[f] = Some(true);
    if f > 0 {
        takes[f * (p + 1) / 2 % p] = Some(true);
    }
    for j in 0..p {
        if takes.iter().filter(|t| **t == Some(true)).count() >= (p - 1) / 2 {
            break;
        }
        if takes[j].is_some() {
            continue;
        }
        let partner = p - 1 - (j + p - f) % p;
        if partner == j || takes[partner] == Some(true) {
            takes[j] = Some(false);
        } else {
            takes[j] = Some(true);
            takes[partner] = Some(false);
        }
    }
    takes.into_iter().map(|t| t == Some(true)).collect()
}

/// The steps for data disk f where these rows take a diagonal: row sets, then diagonals, rows upward.
pub fn steps_by_rows(p: usize, f: usize, diagonal: &[bool]) -> Vec<Step> {
    let by_row = (0..p).filter(|&j| !diagonal[j]);
    let by_row = by_row.map(|j| Step { row: j, kind: 0, number: j });
    let by_diagonal = (0..p).filter(|&j| diagonal[j]);
    let by_diagonal = by_diagonal.map(|j| Step { row: j, kind: 1, number: (j + p - f) % p });
    by_row.chain(by_diagonal).collect()
}

/// The steps of our plan for any disk; those of a data disk do not depend on k.
pub fn our_steps(p: usize, k: usize, disk: usize) -> Vec<Step> {
    if disk < k {
        return steps_by_rows(p, disk, &diagonal_rows(p, disk));
    }
    let kind = disk - k;
    (0..p).map(|i| Step { row: i, kind, number: i }).collect()
}
