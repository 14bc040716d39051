//! The judge of a plan.

pub mod calls;
pub mod checks;
pub mod model;
