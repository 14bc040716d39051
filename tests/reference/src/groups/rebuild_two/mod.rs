//! The rebuild of two lost disks.

pub mod calls;
pub mod checks;
pub mod model;
