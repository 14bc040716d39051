//! The scrub of a stripe: which disk is inconsistent with the others.

pub mod calls;
pub mod checks;
pub mod model;
pub mod refused;
