//! A parity server: writing its stripe, and rebuilding any server from the others.

pub mod calls;
pub mod checks;
pub mod model;
mod refused;
mod two_lost;
