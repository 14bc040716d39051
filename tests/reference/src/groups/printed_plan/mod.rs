//! The plan program.

pub mod calls;
pub mod checks;
pub mod inputs;
pub mod model;
