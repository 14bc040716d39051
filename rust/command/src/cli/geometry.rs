//! The numbers of a set, from `-u` and `-g` and its shape.

use cuzhaveli::Shape;
use cuzhaveli_images::fault::Fault;
use cuzhaveli_images::layout::geometry::{Geometry, MOST_GROUP, MOST_LENGTH, MOST_PIECE};

use crate::cli::args::Given;
use crate::cli::values::usage;

/// The numbers of the set; of a film whose length is not known yet, as if it were the longest.
pub fn geometry(given: &Given, shape: Shape, length: Option<u64>) -> Result<Geometry, Fault> {
    let asked = given.number("-g")?;
    let unit = match given.number("-u")? {
        Some(unit) => unit,
        None => Geometry::unit_within(shape, asked),
    };
    let usual = Geometry::usual_group(shape, unit.clamp(1, MOST_GROUP));
    let group = asked.unwrap_or(usual);
    if group > usual && length.is_none() {
        return Err(usage(format!(
            "-g {group}: of a film without a known length a group has at most {usual} stripes here"
        )));
    }
    if length.is_some_and(|length| length > MOST_LENGTH) {
        return Err(Fault::Failed("the film has more than 2^48 bytes".into()));
    }
    let (cell, length) = (shape.cell_size(), length.unwrap_or(MOST_LENGTH));
    let misfit = || {
        usage(format!(
            "-u {unit} -g {group}: a unit has one stripe, or {MOST_PIECE} / {cell} at most, and a group a multiple of \
             it, 1 to {MOST_GROUP}"
        ))
    };
    Geometry::new(shape, unit, group, length).ok_or_else(misfit)
}
