//! The space of a package.

pub mod calls;
pub mod checks;
pub mod model;
