//! Checksum blocks of units in the second implementation.

use crate::harness::answer::{Answer, ACCEPTED};
use crate::harness::model::{refuse, refuse_shape, Refusal, UnitOf};

/// Refusals 1, 13, 2 and 25.
pub fn refuse_unit(of: UnitOf) -> Refusal {
    let piece = of.stripes as u128 * of.shape.cell_size as u128;
    refuse_shape(of.shape).when(25, |_| piece == 0 || piece > 32_768)
}

/// Then 5 for the name and the block.
pub fn refuse_lengths(refusal: Refusal, of: UnitOf, block: usize) -> Refusal {
    refusal.length(of.name.len(), |_| 16).length(block, |_| 8 * of.places() + 8)
}

/// Writes the checksum block of a unit.
pub fn seal_unit(of: UnitOf, cells: &[u8], block: &mut [u8]) -> Answer {
    let refusal = refuse_lengths(refuse_unit(of), of, block.len());
    let answer = refusal.length(cells.len(), |_| of.places() * of.piece_length()).answer();
    if answer == ACCEPTED {
        let pieces = cells.chunks_exact(of.piece_length()).enumerate();
        let sums: Vec<u8> = pieces.flat_map(|(place, piece)| of.sum(place, piece)).collect();
        let guard = of.guard(&sums);
        block.copy_from_slice(&[&sums[..], &guard].concat());
    }
    answer
}

/// Compares a checksum block with its guard.
pub fn block_fits(of: UnitOf, block: &[u8]) -> Answer {
    let refusal = refuse_lengths(refuse(of.shape.width, of.shape.disks), of, block.len());
    refusal.when(24, |_| !of.is_sealed(block)).answer()
}

/// Compares a piece with the checksum that the block has for that disk and row.
pub fn piece_fits(of: UnitOf, block: &[u8], (disk, row): (usize, usize), piece: &[u8]) -> Answer {
    let refusal = refuse_lengths(refuse_unit(of).disk(disk), of, block.len());
    let refusal = refusal.length(piece.len(), |_| of.piece_length());
    let place = |width: usize| disk * width + row;
    let fits = |width| {
        of.is_sealed(block) && of.sum(place(width), piece) == block[8 * place(width)..][..8]
    };
    refusal.when(15, |shape| row >= shape.width).when(24, |shape| !fits(shape.width)).answer()
}
