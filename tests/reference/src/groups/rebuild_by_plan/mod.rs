//! The rebuild of one lost disk by any accepted plan.

pub mod calls;
pub mod checks;
pub mod model;
