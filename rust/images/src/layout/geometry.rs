//! Where labels, cells and checksum blocks are in an image: every place is computed by the proved
//! calls on layouts. What is here beside them is how much is worked on at once.
//!
//! After the label, stripes go in groups. Within a group the cells of a row lie side by side, so
//! that a row that is not read is a gap; the checksum blocks of its units follow. A unit is some
//! stripes of a group, a piece the cells of one row of a unit on one disk: what has a checksum.

use std::ops::Range;

use cuzhaveli::{Layout, Shape, Unit};

/// The bytes of a label; groups begin at multiples of it.
pub const LABEL_BYTES: usize = 4096;
/// The most stripes of a group.
pub const MOST_GROUP: u64 = 65_536;
/// The most bytes of a piece of more than one cell.
pub const MOST_PIECE: u64 = 32_768;
/// The most bytes of a film.
pub const MOST_LENGTH: u64 = 1 << 48;
/// The place of what no image has: reads and writes there fail.
pub const NOWHERE: u64 = u64::MAX;
/// About the most bytes of memory for what is worked on at once.
pub const MOST_BYTES: u64 = 32 << 20;

/// About what is kept of a piece beside its cells, for sets of many small ones.
const PIECE_BYTES: u64 = 64;

/// The numbers of a set that never change.
#[derive(Clone, Copy, Debug, PartialEq, Eq)]
pub struct Geometry {
    layout: Layout,
    pub shape: Shape,
    /// Stripes of a unit.
    pub unit: u64,
    /// Stripes of a group.
    pub group: u64,
    pub stripes: u64,
    /// Bytes of the film.
    pub length: u64,
}

/// Units of one group that are worked on at once, and their stripes.
#[derive(Clone, Copy, Debug, PartialEq, Eq)]
pub struct Batch {
    pub unit: u64,
    pub units: usize,
    pub first: u64,
    pub count: usize,
}

impl Batch {
    pub fn end_unit(self) -> u64 {
        self.unit + self.units as u64
    }
}

impl Geometry {
    /// The usual unit of a shape: pieces of at most 32 KiB.
    pub fn usual_unit(shape: Shape) -> u64 {
        (MOST_PIECE / shape.cell_size() as u64).max(1)
    }

    /// The unit of a group: the usual one, or less where the group is no multiple of that.
    pub fn unit_within(shape: Shape, group: Option<u64>) -> u64 {
        let usual = Geometry::usual_unit(shape);
        match group {
            Some(group @ 1..=MOST_GROUP) => {
                (1..=usual.min(group)).rev().find(|unit| group.is_multiple_of(*unit)).unwrap_or(1)
            }
            _ => usual,
        }
    }

    /// The usual group: up to eight units, and what can be worked on at once.
    pub fn usual_group(shape: Shape, unit: u64) -> u64 {
        let units = MOST_BYTES / (unit * shape.stripe_len() as u64);
        unit * units.clamp(1, (MOST_GROUP / unit).clamp(1, 8))
    }

    /// A set of a film of that length; none if a number is beyond the limits.
    pub fn new(shape: Shape, unit: u64, group: u64, length: u64) -> Option<Geometry> {
        let layout = shape.layout(unit, group, length).ok()?;
        Some(Geometry { layout, shape, unit, group, stripes: layout.stripes(), length })
    }

    /// The same with a film of another length.
    pub fn with_length(self, length: u64) -> Option<Geometry> {
        Geometry::new(self.shape, self.unit, self.group, length)
    }

    /// The disks, P and Q too.
    pub fn disks(self) -> usize {
        self.shape.disks() + 2
    }

    /// The bytes of a checksum block: a sum for each piece, and the guard.
    pub fn block_len(self) -> usize {
        Unit { shape: self.shape, stripes: 1, set: [0; 16], number: 0 }.block_len()
    }

    pub fn units(self) -> u64 {
        self.layout.units()
    }

    /// The stripes of a unit; none of one that the set lacks.
    pub fn stripes_of(self, unit: u64) -> Range<u64> {
        self.layout.unit(0, unit).map_or(0..0, |place| place.stripes)
    }

    /// Where the cell of a row of a stripe begins.
    pub fn cell_at(self, row: usize, stripe: u64) -> u64 {
        self.layout.cell(row, stripe).map_or(NOWHERE, |cell| cell.start)
    }

    /// Where the checksum block of a unit begins.
    pub fn block_at(self, unit: u64) -> u64 {
        self.layout.block(unit).map_or(NOWHERE, |block| block.start)
    }

    /// Where the second label begins.
    pub fn end(self) -> u64 {
        self.layout.second_label()
    }

    /// The bytes of an image.
    pub fn image_bytes(self) -> u64 {
        self.layout.image_len()
    }

    /// The unit of a byte of the film, and its place in that unit's film.
    pub fn film_at(self, byte: u64) -> Option<(u64, usize)> {
        let place = self.layout.film(byte).ok()?;
        let unit = place.stripe / self.unit;
        let stripe = place.stripe.saturating_sub(self.stripes_of(unit).start) as usize;
        let cell = place.disk * self.shape.width() + place.row;
        let within = cell * self.shape.cell_size() + place.byte;
        Some((unit, stripe * self.shape.data_len() + within))
    }

    /// Units from `unit` on that are worked on at once: of its group, of at most so many bytes in
    /// memory.
    pub fn batch(self, unit: u64, bytes: u64) -> Batch {
        let in_group = self.group / self.unit;
        let left = (in_group - unit % in_group).min(self.units() - unit);
        let pieces = (self.disks() * self.shape.width()) as u64;
        let stripes = self.unit * self.shape.stripe_len() as u64;
        let each = stripes + self.block_len() as u64 + PIECE_BYTES * pieces;
        self.batch_of(unit, left.min((bytes / each).max(1)))
    }

    /// A batch of so many units.
    pub fn batch_of(self, unit: u64, units: u64) -> Batch {
        let (first, end) = (self.stripes_of(unit).start, self.stripes_of(unit + units - 1).end);
        Batch { unit, units: units as usize, first, count: end.saturating_sub(first) as usize }
    }

    /// All batches from a unit on.
    pub fn batches(self, unit: u64, bytes: u64) -> impl Iterator<Item = Batch> {
        let next = move |unit: u64| (unit < self.units()).then(|| self.batch(unit, bytes));
        std::iter::successors(next(unit), move |batch| next(batch.end_unit()))
    }

    /// Whether the rows of a batch lie together: it has all stripes of its group.
    fn is_whole_group(self, batch: Batch) -> bool {
        let row = (batch.count * self.shape.cell_size()) as u64;
        self.cell_at(0, batch.first).checked_add(row) == Some(self.cell_at(1, batch.first))
    }

    /// Rows of a batch by those that lie together in an image: all if it is a whole group.
    pub fn stretches(self, batch: Batch, rows: Range<usize>) -> impl Iterator<Item = Range<usize>> {
        let together = if self.is_whole_group(batch) { rows.len().max(1) } else { 1 };
        rows.clone().step_by(together).map(move |row| row..(row + together).min(rows.end))
    }

    /// The bytes of the checksum blocks of a batch, with the zeros after them if it ends a group:
    /// up to the first cell of the next one, or the second label.
    pub fn blocks_len(self, batch: Batch) -> usize {
        let (start, next) = (self.block_at(batch.unit), batch.first + batch.count as u64);
        let after = if next < self.stripes { self.cell_at(0, next) } else { self.end() };
        match after.checked_sub(start) {
            Some(len) => len as usize,
            None => batch.units * self.block_len(), // the next stripe is of this group
        }
    }

    /// The stripes of a unit by their places in its batch.
    pub fn places(self, batch: Batch, unit: usize) -> Range<usize> {
        let each = self.unit as usize;
        unit * each..((unit + 1) * each).min(batch.count)
    }
}

#[cfg(test)]
mod tests {
    use super::*;

    fn geometry(unit: u64, group: u64, length: u64) -> Geometry {
        Geometry::new(Shape::new(3, 2, 10).unwrap(), unit, group, length).unwrap()
    }

    /// Cells and blocks, sorted, follow one another with zeros only before multiples of 4,096.
    #[test]
    fn cells_blocks_and_labels_fill_the_image() {
        for (unit, group, stripes) in [(1, 1, 3), (2, 4, 9), (3, 6, 5), (2, 6, 12), (1, 5, 0)] {
            let one = geometry(unit, group, stripes * 60);
            let mut parts: Vec<(u64, u64)> = (0..stripes)
                .flat_map(|stripe| (0..3).map(move |row| (one.cell_at(row, stripe), 10)))
                .chain((0..one.units()).map(|unit| (one.block_at(unit), one.block_len() as u64)))
                .collect();
            parts.sort();
            let mut end = 4096;
            for (start, len) in parts {
                assert!(start == end || start == end.next_multiple_of(4096), "{start} after {end}");
                end = start + len;
            }
            assert_eq!(one.end(), end.next_multiple_of(4096));
            assert_eq!(one.image_bytes(), one.end() + 4096);
        }
    }

    #[test]
    fn the_formulas_of_the_manual() {
        let one = geometry(2, 4, 6 * 60 + 1); // seven stripes: a group of four and one of three
        let block = 8 * 3 * 4 + 8;
        let group = (3 * 4 * 10 + 2 * block as u64).next_multiple_of(4096);
        assert_eq!(one.block_len(), block);
        assert_eq!(one.cell_at(2, 3), 4096 + (2 * 4 + 3) * 10);
        assert_eq!(one.cell_at(2, 6), 4096 + group + (2 * 3 + 2) * 10);
        assert_eq!(one.block_at(1), 4096 + 3 * 4 * 10 + block as u64);
        assert_eq!(one.block_at(3), 4096 + group + 3 * 3 * 10 + block as u64);
        assert_eq!(one.stripes_of(3), 6..7);
    }

    #[test]
    fn usual_units_and_groups() {
        let usual = |p, k, s| {
            let shape = Shape::new(p, k, s).unwrap();
            let unit = Geometry::usual_unit(shape);
            (unit, Geometry::usual_group(shape, unit))
        };
        assert_eq!(usual(5, 5, 4096), (8, 64));
        assert_eq!(usual(7, 7, 4096), (8, 64));
        assert_eq!(usual(31, 31, 4096), (8, 8));
        assert_eq!(usual(3, 2, 1), (32_768, 65_536));
        assert_eq!(usual(3, 3, 3000), (10, 80));
        let shape = Shape::new(5, 5, 4096).unwrap();
        let within = |group| Geometry::unit_within(shape, group);
        assert_eq!(
            [within(None), within(Some(12)), within(Some(7)), within(Some(11))],
            [8, 6, 7, 1]
        );
    }

    #[test]
    fn limits() {
        let shape = Shape::new(5, 5, 4096).unwrap();
        for (unit, group, length) in
            [(0, 8, 1), (9, 9, 1), (8, 0, 1), (8, 12, 1), (8, 65_544, 1), (8, 8, (1 << 48) + 1)]
        {
            assert_eq!(Geometry::new(shape, unit, group, length), None);
        }
        assert_eq!(Geometry::new(shape, 8, 65_536, 1 << 48).unwrap().stripes, 2_748_779_070);
    }

    #[test]
    fn batches_stay_within_groups_and_bytes() {
        let one = geometry(2, 8, 13 * 60);
        let counts = |bytes| one.batches(0, bytes).map(|batch| batch.count).collect::<Vec<_>>();
        assert_eq!(counts(u64::MAX), [8, 5]);
        assert_eq!(counts(1), [2, 2, 2, 2, 2, 2, 1]);
        assert_eq!(counts(3 * (240 + 104 + 12 * 64)), [6, 2, 5]);
        let last = one.batch(4, u64::MAX);
        assert_eq!((one.places(last, 1), one.places(last, 2)), (2..4, 4..5));
    }
}
