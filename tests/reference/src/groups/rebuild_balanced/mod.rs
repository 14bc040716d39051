//! The rebuild of one lost disk by the balanced plan.

pub mod calls;
pub mod checks;
pub mod model;
