//! The rebuild of one lost disk.

pub mod calls;
pub mod checks;
pub mod model;
