//! The cells that a rebuild reads.

use std::ops::Range;

/// The cells that a rebuild of one lost disk by a plan reads.
#[derive(Clone, Debug, PartialEq, Eq)]
pub struct ReadList {
    marks: Vec<u8>,
    width: usize,
}

impl ReadList {
    pub(crate) fn new(marks: Vec<u8>, width: usize) -> ReadList {
        ReadList { marks, width }
    }

    /// Whether the cell of that row and disk is read; no for a cell that the array lacks.
    ///
    /// ```
    /// let list = cuzhaveli::Shape::new(5, 5, 1)?.read_list(1)?;
    /// assert!(list.contains(0, 0));
    /// assert!(!list.contains(0, 1)); // lost
    /// assert!(!list.contains(0, 7)); // no such disk
    /// # Ok::<(), cuzhaveli::Refusal>(())
    /// ```
    pub fn contains(&self, row: usize, disk: usize) -> bool {
        row < self.width && self.columns().nth(disk).is_some_and(|marks| marks[row] == 1)
    }

    /// How many cells are read.
    ///
    /// ```
    /// assert_eq!(cuzhaveli::Shape::new(5, 5, 1)?.read_list(1)?.len(), 19);
    /// # Ok::<(), cuzhaveli::Refusal>(())
    /// ```
    pub fn len(&self) -> usize {
        self.marks.iter().filter(|mark| **mark == 1).count()
    }

    /// How many cells of a disk are read; none of a disk that the array lacks.
    ///
    /// ```
    /// let list = cuzhaveli::Shape::new(5, 5, 1)?.read_list(1)?;
    /// assert_eq!((list.share(0), list.share(1), list.share(5)), (3, 0, 3)); // disk 1 is lost, 5 is P
    /// # Ok::<(), cuzhaveli::Refusal>(())
    /// ```
    pub fn share(&self, disk: usize) -> usize {
        self.columns().nth(disk).map_or(0, |marks| marks.iter().filter(|mark| **mark == 1).count())
    }

    /// Whether no cell is read: never so.
    ///
    /// ```
    /// assert!(!cuzhaveli::Shape::new(3, 2, 1)?.read_list(0)?.is_empty());
    /// # Ok::<(), cuzhaveli::Refusal>(())
    /// ```
    pub fn is_empty(&self) -> bool {
        self.len() == 0
    }

    /// A disk and rows of it that lie together and are all read, disk by disk, rows upward: one read of a drive each.
    ///
    /// ```
    /// let list = cuzhaveli::Shape::new(3, 3, 1)?.read_list(1)?;
    /// let runs: Vec<_> = list.runs().collect();
    /// assert_eq!(runs, [(0, 0..2), (2, 0..1), (2, 2..3), (3, 0..1), (4, 0..2)]);
    /// # Ok::<(), cuzhaveli::Refusal>(())
    /// ```
    pub fn runs(&self) -> impl Iterator<Item = (usize, Range<usize>)> + '_ {
        self.columns().enumerate().flat_map(|(disk, marks)| {
            let mut row = 0;
            std::iter::from_fn(move || {
                let start = row + marks[row..].iter().position(|mark| *mark == 1)?;
                let rows = marks[start..].iter().take_while(|mark| **mark == 1).count();
                row = start + rows;
                Some((disk, start..row))
            })
        })
    }

    /// The marks disk by disk.
    fn columns(&self) -> impl Iterator<Item = &[u8]> {
        self.marks.chunks_exact(self.width)
    }
}
