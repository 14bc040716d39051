//! Rebuild runs.

pub mod calls;
pub mod checks;
pub mod model;
mod skips;
