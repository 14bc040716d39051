//! The library's call that opens a unit.

use crate::ffi;
use crate::harness::answer::Answer;
use crate::harness::model::UnitOf;

pub fn open_unit(of: UnitOf, block: &[u8], marks: &mut [u8], cells: &mut [u8]) -> Answer {
    let (name, name_len) = (of.name.as_ptr(), of.name.len());
    let (block, block_len) = (block.as_ptr(), block.len());
    let (marks, marks_len) = (marks.as_mut_ptr(), marks.len());
    let (cells, cells_len) = (cells.as_mut_ptr(), cells.len());
    let (shape, stripes, unit) = (of.shape, of.stripes, of.unit);
    unsafe {
        ffi::cuzhaveli_open_unit(
            shape, stripes, name, name_len, unit, block, block_len, marks, marks_len, cells,
            cells_len,
        )
    }
}
