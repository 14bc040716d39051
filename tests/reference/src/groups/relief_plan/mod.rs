//! The plan that relieves a disk.

pub mod calls;
pub mod checks;
pub mod model;
