//! Plans: their steps, counts and text.

use crate::ffi;

/// A row set or a diagonal set, by its number.
#[derive(Clone, Copy, Debug, PartialEq, Eq, Hash)]
pub enum Set {
    Row(u8),
    Diagonal(u8),
}

/// A step: it rebuilds the lost cell of a row as the XOR of the set's other cells.
#[derive(Clone, Copy, Debug, PartialEq, Eq, Hash)]
pub struct Step {
    pub row: u8,
    pub set: Set,
}

impl Step {
    /// The step as the judge takes it: row, kind, number.
    pub(crate) fn bytes(&self) -> [u8; 3] {
        match self.set {
            Set::Row(number) => [self.row, 0, number],
            Set::Diagonal(number) => [self.row, 1, number],
        }
    }
}

/// What the plan program prints for an input: the text of our plan for an array with as many data disks as rows, or a
/// `refused,NUMBER` line.
///
/// ```
/// let text = cuzhaveli::plan_text(b"p,lost\n3,1\n");
/// assert_eq!(text, b"step,row,set,number,new\n0,0,R,0,3\n1,1,D,0,2\n2,2,D,1,2\n");
/// assert_eq!(cuzhaveli::plan_text(b"p,lost\n9,1\n"), b"refused,1\n");
/// assert_eq!(cuzhaveli::plan_text(b"3,1\n"), b"refused,12\n");
/// ```
pub fn plan_text(input: &[u8]) -> Vec<u8> {
    let text = unsafe { ffi::cuzhaveli_plan_text(input.as_ptr(), input.len()) };
    text.bytes[..text.length].to_vec()
}

/// A plan for one lost disk: ours, the balanced one, one that relieves a disk, or the fewest one.
#[derive(Clone, Debug, PartialEq, Eq)]
pub struct Plan {
    plan: ffi::Plan,
    width: usize,
}

impl Plan {
    pub(crate) fn new(plan: ffi::Plan, width: usize) -> Plan {
        Plan { plan, width }
    }

    /// The steps in their order, one for each row.
    ///
    /// ```
    /// use cuzhaveli::{Set, Shape};
    ///
    /// let plan = Shape::new(3, 3, 1)?.plan(1)?;
    /// let sets: Vec<Set> = plan.steps().map(|step| step.set).collect();
    /// assert_eq!(sets, [Set::Row(0), Set::Diagonal(0), Set::Diagonal(1)]);
    /// # Ok::<(), cuzhaveli::Refusal>(())
    /// ```
    pub fn steps(&self) -> impl Iterator<Item = Step> + '_ {
        let steps = &self.plan.steps;
        (0..self.width).map(|place| {
            let number = steps.numbers[place];
            let set = match steps.kinds[place] {
                0 => Set::Row(number),
                _ => Set::Diagonal(number),
            };
            Step { row: steps.rows[place], set }
        })
    }

    /// The steps as bytes, three a step: row, kind, set number, as the calls on any plan take them.
    ///
    /// ```
    /// assert_eq!(cuzhaveli::Shape::new(3, 3, 1)?.plan(1)?.bytes(), [0, 0, 0, 1, 1, 0, 2, 1, 1]);
    /// # Ok::<(), cuzhaveli::Refusal>(())
    /// ```
    pub fn bytes(&self) -> Vec<u8> {
        self.steps().flat_map(|step| step.bytes()).collect()
    }

    /// How many different surviving cells the plan reads.
    ///
    /// ```
    /// assert_eq!(cuzhaveli::Shape::new(31, 31, 1)?.plan(0)?.reads(), 721);
    /// # Ok::<(), cuzhaveli::Refusal>(())
    /// ```
    pub fn reads(&self) -> u32 {
        self.plan.reads
    }

    /// The rows that take a diagonal: bit i for row i.
    ///
    /// ```
    /// assert_eq!(cuzhaveli::Shape::new(5, 5, 1)?.plan(1)?.routes(), 0b01010);
    /// # Ok::<(), cuzhaveli::Refusal>(())
    /// ```
    pub fn routes(&self) -> u32 {
        self.plan.routes
    }
}
