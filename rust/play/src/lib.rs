// SPDX-License-Identifier: Apache-2.0
//! Films read in place, with up to two disks gone: what the crate `cuzhaveli_images` verifies and
//! mends, for servers that are written in C. cuzhaveli_play.h says what each call does.
//!
//! [`film::Film`] is one film that is served, [`cache::Cache`] the units in memory that all films of
//! a process share, [`tree::Tree`] a store as folders and files.

mod ahead;
mod c;
mod c_tree;
mod cache;
mod drives;
mod errand;
mod film;
mod lane;
mod open;
mod report;
mod round;
mod stamp;
mod tree;
mod unit;
mod version;

pub use c::*;
pub use c_tree::*;
