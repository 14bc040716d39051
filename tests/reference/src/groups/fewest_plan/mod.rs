//! The fewest plan.

pub mod calls;
pub mod checks;
pub mod model;
