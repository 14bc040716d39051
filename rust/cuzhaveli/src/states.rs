//! States of arrays: which disks of each are lost, and how many arrays can bear more losses.

use crate::{ffi, Refusal};

pub use crate::ffi::{ArrayState, Totals};

/// Reports that disk `disk` of array `which` of a list of at most 64 was lost, or is `back`: sets or clears its bit in
/// the array's record and counts the list as it then is. Arrays that have lost no disk are `optimal`, one `degraded`, two
/// `critical`, three or more `failed`. Refuses 20; then every record in order by 1, 13 and 3; then the disk by 3; then
/// 21. The list then stands.
///
/// ```
/// use cuzhaveli::{report_disk, ArrayState, RefusalKind, Totals};
///
/// let mut list = [ArrayState { width: 5, disks: 3, lost: 0 }; 2];
/// let totals = report_disk(&mut list, 1, 4, false)?; // Q of array 1 is lost
/// assert_eq!(totals, Totals { optimal: 1, degraded: 1, critical: 0, failed: 0 });
/// assert_eq!(list[1].lost, 1 << 4);
/// assert_eq!(report_disk(&mut list, 1, 4, false).unwrap_err().kind(), RefusalKind::DiskUnchanged);
/// let totals = report_disk(&mut list, 1, 4, true)?; // and is back
/// assert_eq!((totals.optimal, list[1].lost), (2, 0));
/// # Ok::<(), cuzhaveli::Refusal>(())
/// ```
pub fn report_disk(
    list: &mut [ArrayState],
    which: usize,
    disk: usize,
    back: bool,
) -> Result<Totals, Refusal> {
    let (list, list_len) = (list.as_mut_ptr(), list.len());
    let board = unsafe { ffi::cuzhaveli_report_disk(list, list_len, which, disk, back) };
    board.answer.accepted()?;
    Ok(board.totals)
}
