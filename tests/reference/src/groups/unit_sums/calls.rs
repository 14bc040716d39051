//! The library's calls that make a checksum block and compare a piece with it.

use crate::ffi;
use crate::harness::answer::Answer;
use crate::harness::model::UnitOf;

pub fn seal_unit(of: UnitOf, cells: &[u8], block: &mut [u8]) -> Answer {
    let (name, name_len) = (of.name.as_ptr(), of.name.len());
    let (cells, cells_len) = (cells.as_ptr(), cells.len());
    let (block, block_len) = (block.as_mut_ptr(), block.len());
    let (shape, stripes, unit) = (of.shape, of.stripes, of.unit);
    unsafe {
        ffi::cuzhaveli_seal_unit(
            shape, stripes, name, name_len, unit, cells, cells_len, block, block_len,
        )
    }
}

pub fn block_fits(of: UnitOf, block: &[u8]) -> Answer {
    let (name, name_len) = (of.name.as_ptr(), of.name.len());
    let (block, block_len) = (block.as_ptr(), block.len());
    let (width, disks, unit) = (of.shape.width, of.shape.disks, of.unit);
    unsafe { ffi::cuzhaveli_block_fits(width, disks, name, name_len, unit, block, block_len) }
}

pub fn piece_fits(of: UnitOf, block: &[u8], (disk, row): (usize, usize), piece: &[u8]) -> Answer {
    let (name, name_len) = (of.name.as_ptr(), of.name.len());
    let (block, block_len) = (block.as_ptr(), block.len());
    let (piece, piece_len) = (piece.as_ptr(), piece.len());
    let (shape, stripes, unit) = (of.shape, of.stripes, of.unit);
    unsafe {
        ffi::cuzhaveli_piece_fits(
            shape, stripes, name, name_len, unit, block, block_len, disk, row, piece, piece_len,
        )
    }
}
