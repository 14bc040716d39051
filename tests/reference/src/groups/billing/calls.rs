//! The library's calls that bill hosted rebuilds.

use crate::ffi;
pub use crate::ffi::Bill;
use crate::groups::rebuild_runs::calls::Run;

/// The bill of so many bytes.
pub fn bill_bytes(bytes: u64, [first, second, third]: [u64; 3]) -> Bill {
    unsafe { ffi::cuzhaveli_bill_bytes(bytes, first, second, third) }
}

/// The bill of a run.
pub fn bill_run(run: &Run, [first, second, third]: [u64; 3]) -> Bill {
    unsafe { ffi::cuzhaveli_bill_run(*run, first, second, third) }
}

impl Bill {
    /// An accepted bill.
    pub fn of([first, second, third]: [u64; 3], cents: u64) -> Bill {
        Bill { first, second, third, cents, ..Bill::default() }
    }
}
