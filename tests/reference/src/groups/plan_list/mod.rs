//! The read list of any accepted plan.

pub mod calls;
pub mod checks;
pub mod model;
