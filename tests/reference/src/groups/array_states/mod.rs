//! States of arrays: reports of lost and returned disks on a list.

pub mod calls;
pub mod checks;
pub mod model;
pub mod refused;
pub mod series;
