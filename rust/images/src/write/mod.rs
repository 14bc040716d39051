//! Images written: new ones, lost ones, and bad pieces in place.

pub mod deliver;
pub mod encode;
pub mod output;
pub mod rebuild;
pub mod repair;
pub mod spare;
pub mod spares;
