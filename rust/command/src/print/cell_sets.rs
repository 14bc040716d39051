//! The sets of an array: which cells each holds, and what it is called.

use cuzhaveli::{Set as CellSet, Shape};

/// All sets: the rows, then the diagonals.
pub fn all(shape: Shape) -> impl Iterator<Item = CellSet> {
    let width = shape.width() as u8; // 31 at most
    (0..width).map(CellSet::Row).chain((0..width).map(CellSet::Diagonal))
}

/// `R 3` or `D 0`.
pub fn name(set: CellSet) -> String {
    match set {
        CellSet::Row(number) => format!("R {number}"),
        CellSet::Diagonal(number) => format!("D {number}"),
    }
}

/// Whether a set holds a cell.
pub fn holds(shape: Shape, set: CellSet, row: usize, disk: usize) -> bool {
    let (p, k) = (shape.width(), shape.disks());
    match set {
        CellSet::Row(i) => row == usize::from(i) && disk <= k,
        CellSet::Diagonal(i) => {
            let i = usize::from(i);
            let ordinary = disk < k && row == (i + disk) % p;
            let extra = i > 0 && disk < k && row == p - 1 - i && disk == p - 2 * i % p;
            ordinary || extra || (disk == k + 1 && row == i)
        }
    }
}

/// The cells that a set holds, row and disk.
pub fn cells_of(shape: Shape, set: CellSet) -> Vec<(usize, usize)> {
    let (p, k) = (shape.width(), shape.disks());
    match set {
        CellSet::Row(i) => (0..=k).map(|disk| (usize::from(i), disk)).collect(),
        CellSet::Diagonal(i) => {
            let i = usize::from(i);
            let ordinary = (0..k).map(|disk| ((i + disk) % p, disk));
            let extra = (i > 0).then(|| (p - 1 - i, p - 2 * i % p)).filter(|(_, disk)| *disk < k);
            ordinary.chain(extra).chain([(i, k + 1)]).collect()
        }
    }
}

/// The cells of an array, row and disk, in the order of a stripe.
pub fn cells(shape: Shape) -> impl Iterator<Item = (usize, usize)> {
    (0..shape.disks() + 2).flat_map(move |disk| (0..shape.width()).map(move |row| (row, disk)))
}

/// The sets of a stripe whose cells do not XOR to zero.
pub fn dirty(shape: Shape, stripe: &[u8]) -> Vec<CellSet> {
    let is_dirty = |set: &CellSet| {
        let mut sum = vec![0; shape.cell_size()];
        for (row, disk) in cells_of(shape, *set) {
            let cell = &stripe[shape.cell_range(row, disk)];
            sum.iter_mut().zip(cell).for_each(|(sum, byte)| *sum ^= byte);
        }
        sum.iter().any(|byte| *byte != 0)
    };
    all(shape).filter(is_dirty).collect()
}

#[cfg(test)]
mod tests {
    use super::*;

    /// The library leaves sets that XOR to zero, and a changed cell is in one row and one or two
    /// diagonals, or is Q's.
    #[test]
    fn the_dirty_sets_are_those_of_the_changed_cell() {
        for (p, k) in [(3, 2), (3, 3), (5, 5), (7, 4), (13, 13)] {
            let shape = Shape::new(p, k, 2).unwrap();
            let mut stripe: Vec<u8> = (0..shape.stripe_len()).map(|n| (n * n >> 2) as u8).collect();
            shape.encode(&mut stripe).unwrap();
            assert_eq!(dirty(shape, &stripe), []);
            for set in all(shape) {
                let mut held = cells_of(shape, set);
                held.sort_by_key(|(row, disk)| (*disk, *row));
                let holds = |cell: &(usize, usize)| holds(shape, set, cell.0, cell.1);
                assert!(cells(shape).filter(holds).eq(held));
            }
            for (row, disk) in cells(shape) {
                let byte = shape.cell_range(row, disk).start + 1;
                stripe[byte] ^= 4;
                let held: Vec<CellSet> =
                    all(shape).filter(|set| holds(shape, *set, row, disk)).collect();
                assert!((if disk < k { 2..=3 } else { 1..=1 }).contains(&held.len()));
                assert_eq!(dirty(shape, &stripe), held);
                stripe[byte] ^= 4;
            }
        }
    }
}
