//! The shape of an array's stripes, as the library takes it.

/// The code's width p, which is the number of rows; the number k of data disks; the cell size s.
pub use crate::ffi::Shape;

impl Shape {
    pub fn new(width: usize, disks: usize, cell_size: usize) -> Shape {
        Shape { width, disks, cell_size }
    }

    /// As many data disks as rows.
    pub fn full(width: usize, cell_size: usize) -> Shape {
        Shape::new(width, width, cell_size)
    }

    /// The numbers of all disks: data disks, then P, then Q.
    pub fn all_disks(&self) -> std::ops::Range<usize> {
        0..self.disks + 2
    }

    /// The bytes of all data disks.
    pub fn data_length(&self) -> usize {
        self.disks * self.width * self.cell_size
    }
}
