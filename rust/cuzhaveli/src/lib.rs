// SPDX-License-Identifier: Apache-2.0
//! A proved Liberation RAID-6 code, as safe calls over `libcuzhaveli.a`.
//!
//! An array has a width p (3, 5, 7, 11, 13, 17, 19, 23, 29 or 31), k data disks (2 to p), row
//! parity P (disk k) and diagonal parity Q (disk k + 1). In a stripe each disk holds p cells of s
//! bytes, s from 1 to 4,096; the cell of row i on disk c starts at byte (c × p + i) × s. A [`Shape`]
//! is such a p, k and s, and the calls stand on it:
//!
//! ```
//! use cuzhaveli::Shape;
//!
//! let shape = Shape::new(5, 5, 512)?;
//! let mut stripe = vec![7; shape.stripe_len()]; // the film first, then room for P and Q
//! shape.encode(&mut stripe)?;
//!
//! let lost = 1;
//! let list = shape.read_list(lost)?; // 19 cells of 30 survivors are read
//! let mut survivors = vec![0; shape.stripe_len()];
//! for (disk, rows) in list.runs() {
//!     for row in rows {
//!         let cell = shape.cell_range(row, disk);
//!         survivors[cell.clone()].copy_from_slice(&stripe[cell]);
//!     }
//! }
//! let mut column = vec![0; shape.column_len()];
//! shape.rebuild_one(lost, &survivors, &mut column)?;
//! assert_eq!(column, &stripe[shape.disk_range(lost)]);
//! # Ok::<(), cuzhaveli::Refusal>(())
//! ```
//!
//! What computes is the proved archive alone. This crate tests nothing that the library tests, so a
//! [`Refusal`] is the library's; every call is sound for any argument. `include/cuzhaveli.h` has the
//! same calls for C, [`ffi`] their declarations.

mod bill;
pub mod ffi;
mod layout;
mod plan;
mod plans;
mod read_list;
mod rebuild;
mod refusal;
mod run;
mod shape;
mod states;
mod unit;

pub use bill::{bill, Bill};
pub use layout::{FilmPlace, Layout, UnitPlace};
pub use plan::{plan_text, Plan, Set, Step};
pub use read_list::ReadList;
pub use refusal::{Refusal, RefusalKind};
pub use run::Run;
pub use shape::{Scrub, Shape, Space, NO_LOSS};
pub use states::{report_disk, ArrayState, Totals};
pub use unit::Unit;

/// The version of the archive: 10,000 times its first number, 100 times its second, and its third.
///
/// ```
/// assert_eq!(cuzhaveli::version(), 10_000); // 1.0.0
/// ```
pub fn version() -> u32 {
    unsafe { ffi::cuzhaveli_version() }
}
