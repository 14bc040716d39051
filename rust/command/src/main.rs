// SPDX-License-Identifier: Apache-2.0
//! The command `cuzhaveli`: images of disks, encoded, checked, rebuilt with few reads, in a full array the fewest.
//!
//! All coding is done by the proved library, and all reading and writing of images by the crate
//! `cuzhaveli_images`: a command sorts its words ([`cli`]), calls, and says what came of it ([`print`]).
//! docs/man/cuzhaveli.1 is the manual.

mod cli;
mod commands;
mod print;

use std::process::ExitCode;

use cuzhaveli_images::os::sys;

use crate::print::say;

fn main() -> ExitCode {
    sys::outlive_size_limits();
    sys::raise_open_files();
    match commands::run(std::env::args_os().skip(1)) {
        Ok(()) => ExitCode::SUCCESS,
        Err(fault) => {
            say::error(&fault.to_string());
            ExitCode::from(fault.status())
        }
    }
}
