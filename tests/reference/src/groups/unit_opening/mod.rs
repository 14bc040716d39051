//! Units opened: what does not fit comes back from the rest.

pub mod calls;
pub mod checks;
pub mod model;
