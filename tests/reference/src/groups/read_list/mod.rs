//! The read list of our plan.

pub mod calls;
pub mod checks;
pub mod model;
