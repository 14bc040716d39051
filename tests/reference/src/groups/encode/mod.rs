//! Encoding a stripe and checking it.

pub mod calls;
pub mod checks;
pub mod model;
