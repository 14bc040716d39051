//! The core of the second implementation, written from the papers alone: sets are explicit lists
//! of cells, and everything else is counted on them.

mod checksums;
mod full;
mod further_plans;
mod our_plan;
mod refusals;
mod sets;
mod steps;
mod stripe;

pub use checksums::{xxh64, UnitOf};
pub use full::{full_disk, full_shape, widened};
pub use further_plans::{balanced_steps, fewest_steps, relief_steps};
pub use our_plan::our_steps;
pub use refusals::{refuse, refuse_shape, Refusal, WIDTHS};
pub use sets::{diagonal_set, extra_cell, row_set, set_cells, Cell};
pub use steps::{bytes_of, cells_read, lost_rows, steps_of, Step};
pub use stripe::{add, cell_place, column_length, disk_place, encode, stripe_length, sum_of};
