//! The opening of a unit in the second implementation: missing cells of a stripe whose cells are the pieces.

use crate::groups::rebuild_cells::determined::determined;
use crate::groups::rebuild_cells::model::{mend, missing_cells};
use crate::groups::unit_sums::model::{refuse_lengths, refuse_unit};
use crate::harness::answer::{Answer, ACCEPTED};
use crate::harness::model::UnitOf;
use crate::harness::Shape;

/// Brings back the pieces that are marked or do not fit, and marks those that do not fit then.
pub fn open_unit(of: UnitOf, block: &[u8], marks: &mut [u8], cells: &mut [u8]) -> Answer {
    let refusal = refuse_lengths(refuse_unit(of), of, block.len())
        .length(cells.len(), |_| of.places() * of.piece_length())
        .length(marks.len(), |_| of.places())
        .when(24, |_| !of.is_sealed(block));
    let answer = refusal.answer();
    if answer != ACCEPTED {
        return answer;
    }
    let present = |place: usize| marks[place] == 0 && of.fits(block, cells, place);
    let missing: Vec<u8> = (0..marks.len()).map(|place| u8::from(!present(place))).collect();
    let whole = Shape { cell_size: of.piece_length(), ..of.shape };
    let missing = missing_cells(whole, &missing);
    if !determined(whole.width, whole.disks, &missing) {
        return Answer::of(23);
    }
    mend(whole, &missing, cells);
    for (place, mark) in marks.iter_mut().enumerate() {
        *mark = u8::from(!of.fits(block, cells, place));
    }
    ACCEPTED
}
