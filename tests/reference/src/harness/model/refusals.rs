//! The refusals that many calls give, each written once. Checks go upward by number, but 13 comes right after 1.

use super::{column_length, stripe_length};
use crate::harness::answer::Answer;
use crate::harness::Shape;

/// The ten accepted widths.
pub const WIDTHS: [usize; 10] = [3, 5, 7, 11, 13, 17, 19, 23, 29, 31];

/// A call's checks so far: the first refusal that applies, or 0.
pub struct Refusal {
    shape: Shape,
    number: u8,
}

/// Begins a call's checks with its width and its number of data disks.
pub fn refuse(width: usize, disks: usize) -> Refusal {
    let begun = Refusal { shape: Shape { width, disks, cell_size: 0 }, number: 0 };
    begun.when(1, |_| !WIDTHS.contains(&width)).when(13, |_| disks < 2 || disks > width)
}

/// Begins the checks of a call on bytes with the shape of its stripes.
pub fn refuse_shape(shape: Shape) -> Refusal {
    let size = shape.cell_size;
    let begun = refuse(shape.width, shape.disks).when(2, |_| size == 0 || size > 4_096);
    Refusal { shape, ..begun }
}

impl Refusal {
    /// This refusal, if none before it applies; only then the condition is looked at.
    pub fn when(mut self, number: u8, applies: impl FnOnce(Shape) -> bool) -> Refusal {
        if self.number == 0 && applies(self.shape) {
            self.number = number;
        }
        self
    }

    pub fn disk(self, disk: usize) -> Refusal {
        self.when(3, |shape| disk > shape.disks + 1)
    }

    /// Two lost disks: each must be there, then they must differ.
    pub fn two_disks(self, first: usize, second: usize) -> Refusal {
        self.disk(first).disk(second).when(4, |_| first == second)
    }

    /// A lent slice must have the length that the accepted numbers require.
    pub fn length(self, length: usize, required: impl FnOnce(Shape) -> usize) -> Refusal {
        self.when(5, |shape| length != required(shape))
    }

    pub fn stripe(self, length: usize) -> Refusal {
        self.length(length, stripe_length)
    }

    pub fn column(self, length: usize) -> Refusal {
        self.length(length, column_length)
    }

    /// The answer of a call that was checked so.
    pub fn answer(self) -> Answer {
        Answer::of(self.number)
    }
}
