//! The library's call that hands out film.

use crate::ffi;
use crate::harness::answer::Answer;
use crate::harness::model::UnitOf;

pub fn film_bytes(of: UnitOf, block: &[u8], cells: &[u8], from: usize, out: &mut [u8]) -> Answer {
    let (name, name_len) = (of.name.as_ptr(), of.name.len());
    let (block, block_len) = (block.as_ptr(), block.len());
    let (cells, cells_len) = (cells.as_ptr(), cells.len());
    let (out, out_len) = (out.as_mut_ptr(), out.len());
    let (shape, stripes, unit) = (of.shape, of.stripes, of.unit);
    unsafe {
        ffi::cuzhaveli_film_bytes(
            shape, stripes, name, name_len, unit, block, block_len, cells, cells_len, from, out,
            out_len,
        )
    }
}
