//! Bills of bytes read.

use crate::{ffi, Refusal};

/// A bill: the bytes in each band, which add up to the whole, and the price.
#[derive(Clone, Copy, Debug, PartialEq, Eq)]
pub struct Bill {
    pub bands: [u64; 3],
    pub cents: u64,
}

/// The bill of so many bytes. A rate is in cents a GiB, up to 1,000: for the first 64 GiB, for the part above up to
/// 1,024 GiB, for the rest; the products are added, then rounded to the nearest cent, an exact half to the even one.
/// Refuses 16, 17.
///
/// ```
/// let bill = cuzhaveli::bill(65 << 30, [10, 5, 1])?;
/// assert_eq!(bill.bands, [64 << 30, 1 << 30, 0]);
/// assert_eq!(bill.cents, 645);
/// let halves = [1, 3, 5].map(|rate| cuzhaveli::bill(1 << 29, [rate, 0, 0]).unwrap().cents); // 0.5, 1.5 and 2.5 cents
/// assert_eq!(halves, [0, 2, 2]);
/// # Ok::<(), cuzhaveli::Refusal>(())
/// ```
pub fn bill(bytes: u64, rates: [u64; 3]) -> Result<Bill, Refusal> {
    let [first, second, third] = rates;
    Bill::of(unsafe { ffi::cuzhaveli_bill_bytes(bytes, first, second, third) })
}

impl Bill {
    pub(crate) fn of(bill: ffi::Bill) -> Result<Bill, Refusal> {
        bill.answer.accepted()?;
        Ok(Bill { bands: [bill.first, bill.second, bill.third], cents: bill.cents })
    }
}
