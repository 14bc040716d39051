//! Two lost disks in the second implementation: the one clean stripe with the contents of the other disks, as the
//! solution of one equation for each set. No walk and no first cell: the cells of the two disks are the unknowns, and
//! sets are added to each other until each has one of them left.

use crate::harness::model::{add, cell_place, set_cells, sum_of, Cell};
use crate::harness::Shape;

/// Writes both disks.
pub fn solve(shape: Shape, lost: [usize; 2], stripe: &mut [u8]) {
    let column = |disk: usize| (0..shape.width).map(move |row| (row, disk));
    let unknowns: Vec<Cell> = lost.into_iter().flat_map(column).collect();
    let mut equations = equations(shape, &unknowns, stripe);
    for n in 0..unknowns.len() {
        let has = |equation: &Equation| equation.cells >> n & 1 == 1;
        let found = equations[n..].iter().position(has).expect("a set for every lost cell");
        equations.swap(n, n + found);
        let (before, rest) = equations.split_at_mut(n);
        let (used, after) = rest.split_first_mut().expect("as many sets as lost cells");
        for equation in before.iter_mut().chain(after).filter(|equation| has(equation)) {
            equation.cells ^= used.cells;
            add(&mut equation.sum, &used.sum);
        }
    }
    for (equation, cell) in equations.iter().zip(unknowns) {
        stripe[cell_place(shape, cell)].copy_from_slice(&equation.sum);
    }
}

/// The lost cells of a set, by bits, and the XOR of its other cells.
struct Equation {
    cells: u64,
    sum: Vec<u8>,
}

fn equations(shape: Shape, unknowns: &[Cell], stripe: &[u8]) -> Vec<Equation> {
    let sets = (0..2).flat_map(|kind| (0..shape.width).map(move |i| (kind, i)));
    let equation = |(kind, i)| {
        let mut known = set_cells(shape.width, shape.disks, kind, i);
        let bit = |n: usize| (known.contains(&unknowns[n]) as u64) << n;
        let cells = (0..unknowns.len()).map(bit).sum();
        known.retain(|cell| !unknowns.contains(cell));
        Equation { cells, sum: sum_of(shape, stripe, &known) }
    };
    sets.map(equation).collect()
}
