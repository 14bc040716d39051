//! What accepted plans cost.

pub mod checks;
pub mod model;
