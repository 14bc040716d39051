//! Bills of hosted rebuilds.

pub mod calls;
pub mod checks;
pub mod model;
