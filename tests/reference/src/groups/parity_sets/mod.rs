//! Every set of every width, seen through the judge.

pub mod checks;
