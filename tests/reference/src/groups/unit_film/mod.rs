//! The film of units, handed out where it fits.

pub mod calls;
pub mod checks;
pub mod model;
