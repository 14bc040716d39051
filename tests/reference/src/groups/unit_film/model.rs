//! The film of a unit in the second implementation: byte by byte, each from its piece.

use std::collections::BTreeSet;

use crate::groups::unit_sums::model::{refuse_lengths, refuse_unit};
use crate::harness::answer::{Answer, ACCEPTED};
use crate::harness::model::UnitOf;

/// The piece of a byte of film, and the byte of the unit.
fn place_of(of: UnitOf, byte: usize) -> (usize, usize) {
    let size = of.shape.cell_size;
    let (cell, within) = (byte / size, byte % size);
    let data = of.shape.disks * of.shape.width;
    let (stripe, place) = (cell / data, cell % data);
    (place, place * of.piece_length() + stripe * size + within)
}

/// Writes the film from a byte on, if every piece that it is in fits.
pub fn film_bytes(of: UnitOf, block: &[u8], cells: &[u8], from: usize, out: &mut [u8]) -> Answer {
    let past = |film: usize| from as u128 + out.len() as u128 > film as u128;
    let fit = || {
        let size = of.shape.cell_size;
        let touched = from / size..(from + out.len()).div_ceil(size); // one for no bytes in a cell
        let pieces: BTreeSet<usize> = touched.map(|cell| place_of(of, cell * size).0).collect();
        pieces.into_iter().all(|place| of.fits(block, cells, place))
    };
    let answer = refuse_lengths(refuse_unit(of), of, block.len())
        .length(cells.len(), |_| of.places() * of.piece_length())
        .when(5, |shape| past(shape.disks * shape.width * of.piece_length()))
        .when(24, |_| !of.is_sealed(block) || !fit())
        .answer();
    if answer == ACCEPTED {
        let bytes = (from..).map(|byte| cells[place_of(of, byte).1]);
        out.iter_mut().zip(bytes).for_each(|(byte, film)| *byte = film);
    }
    answer
}
