//! Where the bytes of a film are in the images of its disks.

pub mod calls;
pub mod checks;
pub mod model;
