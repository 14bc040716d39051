//! The vectors of conformance/vectors/, those recorded from Jerasure too: the library agrees with every line.

mod changes;
pub mod checks;
pub mod file;
mod large;
mod plans;
mod refusals;
mod stripes;
