//! A store of packages over the disks' own file systems: a set of images for each file, named by
//! it, and one small catalogue on every disk, replaced whole. docs/man/cuzhaveli.1 describes it.
//!
//! [`opened::Store`] is what the disks say, [`change::Change`] the one way to change it. What a command
//! does is one function: [`put::put`], [`get::get`], [`remove::remove`], [`patch::patch`],
//! [`rebuild::rebuild`], [`check::check`], [`repair::repair`], [`create::create`].

mod agree;
pub mod board;
pub mod catalogue;
pub mod change;
pub mod check;
pub mod create;
pub mod disk_file;
pub mod file_gaps;
pub mod get;
pub mod images;
pub mod mend_disk;
pub mod name;
pub mod opened;
pub mod patch;
mod patched;
pub mod place;
pub mod put;
pub mod quorum;
pub mod rebuild;
mod refresh;
pub mod remove;
pub mod repair;
pub mod replace;
mod sealed;
pub mod source;
pub mod space;
