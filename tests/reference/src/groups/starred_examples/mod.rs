//! The examples of document 01 on plans.

pub mod checks;
