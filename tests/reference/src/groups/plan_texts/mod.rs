//! Plans as text: the judge of a text, the plain form of a plan, and of a text.

pub mod calls;
pub mod checks;
pub mod forms;
pub mod model;
mod odd;
