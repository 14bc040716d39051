//! How lost disks come back, and how that was asked for.

use std::ops::Range;

/// How lost disks come back where all that is read fits its checksums.
#[derive(Clone, Debug, PartialEq, Eq)]
pub enum Way {
    /// Nothing is lost of what is wanted.
    None,
    /// By our plan.
    Ours(usize),
    /// By the balanced plan.
    Balanced(usize),
    /// By these steps, the fewest plan.
    Fewest(usize, Vec<u8>),
    /// By these steps, an accepted plan that relieves a disk.
    Relief(usize, Vec<u8>),
    /// By these steps, an accepted plan of a host.
    Plan(usize, Vec<u8>),
    /// By our plan, after all survivors of a stripe were tested.
    Tested(usize),
    /// By every row, for comparison.
    Rows(usize),
    /// By these rows alone, the others of the disk stay lost.
    SomeRows(usize, Range<usize>),
    Two([usize; 2]),
}

/// How a rebuild of one disk was asked for.
#[derive(Clone, Debug, PartialEq, Eq)]
pub enum Choice {
    /// By the balanced plan where it reads as few cells as ours, else by ours.
    Unasked,
    Tested,
    Rows,
    Ours,
    Balanced,
    Fewest,
    /// With the least asked of this disk.
    Relief(usize),
    /// By these steps.
    Plan(Vec<u8>),
}

impl Way {
    /// The disks that come back.
    pub fn lost(&self) -> &[usize] {
        match self {
            Way::None => &[],
            Way::Ours(one) | Way::Balanced(one) | Way::Tested(one) | Way::Rows(one) => {
                std::slice::from_ref(one)
            }
            Way::Fewest(one, _)
            | Way::Relief(one, _)
            | Way::Plan(one, _)
            | Way::SomeRows(one, _) => std::slice::from_ref(one),
            Way::Two(both) => both,
        }
    }

    /// The pieces that come back, by disk and row, of so many rows.
    pub fn pieces(&self, width: usize) -> impl Iterator<Item = (usize, usize)> + '_ {
        let rows = match self {
            Way::SomeRows(_, rows) => rows.clone(),
            _ => 0..width,
        };
        self.lost().iter().flat_map(move |disk| rows.clone().map(move |row| (*disk, row)))
    }

    /// What results call it.
    pub fn name(&self) -> &'static str {
        match self {
            Way::None => "none",
            Way::Ours(_) => "own",
            Way::Balanced(_) => "balanced",
            Way::Fewest(..) => "fewest",
            Way::Relief(..) => "relief",
            Way::Plan(..) => "file",
            Way::Tested(_) => "tested",
            Way::Rows(_) | Way::SomeRows(..) => "rows",
            Way::Two(_) => "two",
        }
    }
}
