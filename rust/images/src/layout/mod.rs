//! Where all stands in an image, as functions of a few numbers: cells, checksums and labels.

pub mod blocks;
pub mod cells;
pub mod geometry;
pub mod label;
pub mod sums;
pub mod xxh64;
