//! The balanced, the relief and the fewest plan for one lost disk; for P and Q they are our plan.

use super::our_plan::{our_steps, steps_by_rows};
use super::{cells_read, Step};

/// The steps of the plan whose rows with a diagonal are those of data disk f, or of our plan.
fn steps(p: usize, k: usize, disk: usize, rows: impl Fn(usize) -> Vec<usize>) -> Vec<Step> {
    if disk >= k {
        return our_steps(p, k, disk);
    }
    let mut diagonal = vec![false; p];
    for row in rows(disk) {
        diagonal[row] = true;
    }
    steps_by_rows(p, disk, &diagonal)
}

/// Half of a number mod p.
fn half(p: usize, number: usize) -> usize {
    number * (p + 1) / 2 % p
}

/// The balanced plan: row j takes a diagonal if j - a is a nonzero square mod p, where a is half of
/// f - 1, or of f - 2 if p - 1 is a square.
pub fn balanced_steps(p: usize, k: usize, disk: usize) -> Vec<Step> {
    let squares: Vec<usize> = (1..p).map(|x| x * x % p).collect();
    let e = usize::from(squares.contains(&(p - 1)));
    let start = |f: usize| half(p, f + 2 * p - 1 - e);
    steps(p, k, disk, |f| squares.iter().map(|square| (start(f) + square) % p).collect())
}

/// The progression plan with step g: rows a + g, a + 2g, .., a + hg mod p take a diagonal, where a
/// is half of f - 1 and h half of p - 1.
fn progression(p: usize, k: usize, disk: usize, g: impl Fn(usize) -> usize) -> Vec<Step> {
    let row = |f: usize, x: usize| (half(p, f + p - 1) + g(f) * x) % p;
    steps(p, k, disk, |f| (1..=(p - 1) / 2).map(|x| row(f, x)).collect())
}

/// The relief plan: the step is twice the way from f to the relieved disk.
pub fn relief_steps(p: usize, k: usize, disk: usize, relieved: usize) -> Vec<Step> {
    progression(p, k, disk, |f| 2 * (relieved + p - f))
}

/// The fewest plan: the first that reads fewest cells of the progression plans, ours and the
/// balanced one, in this order.
pub fn fewest_steps(p: usize, k: usize, disk: usize) -> Vec<Step> {
    let progressions = (1..=(p - 1) / 2).map(|g| progression(p, k, disk, |_| g));
    let all = progressions.chain([our_steps(p, k, disk), balanced_steps(p, k, disk)]);
    all.min_by_key(|steps| cells_read(p, k, disk, steps).len()).expect("several plans")
}
