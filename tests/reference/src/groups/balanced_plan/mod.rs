//! The balanced plan.

pub mod calls;
pub mod checks;
pub mod model;
