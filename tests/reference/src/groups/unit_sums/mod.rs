//! Checksum blocks of units, and one piece compared.

pub mod calls;
pub mod checks;
pub mod model;
pub mod units;
