//! The update of one cell.

pub mod calls;
pub mod checks;
pub mod model;
mod orders;
