//! The planner.

pub mod calls;
pub mod checks;
pub mod model;
