//! The mend of missing cells.

pub mod calls;
pub mod checks;
pub mod determined;
pub mod model;
pub mod patterns;
