//! The rebuild of one lost disk with tested survivors.

pub mod calls;
pub mod checks;
pub mod model;
pub mod refused;
