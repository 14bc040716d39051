//! Writes the vectors of conformance/vectors/, whose FORMAT.md tells the form, from the second implementation.

mod cells;
mod changes;
pub mod large;
mod lines;
mod plans;
pub mod refusals;
pub mod sha256;
mod stripes;

/// The files by name, each with its whole text.
pub fn files() -> Vec<(&'static str, String)> {
    vec![
        ("encode.txt", stripes::encode()),
        ("one.txt", stripes::one()),
        ("two.txt", stripes::two()),
        ("cells.txt", cells::cells()),
        ("update.txt", changes::update()),
        ("scrub.txt", changes::scrub()),
        ("lists.txt", plans::lists()),
        ("plans.txt", plans::plans()),
        ("refusals.txt", refusals::refusals()),
        ("large.txt", large::large()),
    ]
}
