//! The layout of images in the second implementation: groups are laid one after another, as the manual page has them.

use super::calls::{FilmPlace, Image, Layout, Place, UnitPlace};
use crate::harness::answer::{Answer, ACCEPTED};
use crate::harness::model::refuse_shape;
use crate::harness::model::Refusal;
use crate::harness::Shape;

const LABEL: u128 = 4_096;

/// The refusals of a layout.
fn refuse_layout(layout: Layout) -> Refusal {
    let Layout { width, disks, cell_size, unit, group, length } = layout;
    let piece = unit as u128 * cell_size as u128;
    refuse_shape(Shape { width, disks, cell_size })
        .when(11, |_| length > 1 << 48)
        .when(25, |_| unit == 0 || (unit > 1 && piece > 32_768))
        .when(25, |_| group == 0 || group > 65_536 || !group.is_multiple_of(unit))
}

/// A group: where it begins, its first stripe and how many it has.
struct Stripes {
    start: u128,
    first: u128,
    count: u128,
}

/// An accepted layout in numbers that no sum of it exceeds.
struct Numbers {
    width: u128,
    cell: u128,
    unit: u128,
    group: u128,
    stripes: u128,
    block: u128,
}

impl Numbers {
    fn of(layout: Layout) -> Numbers {
        let (width, disks) = (layout.width as u128, layout.disks as u128);
        let cell = layout.cell_size as u128;
        Numbers {
            width,
            cell,
            unit: layout.unit as u128,
            group: layout.group as u128,
            stripes: (layout.length as u128).div_ceil(width * disks * cell),
            block: 8 * width * (disks + 2) + 8,
        }
    }

    fn units(&self) -> u128 {
        self.stripes.div_ceil(self.unit)
    }

    /// The bytes that a group of so many stripes takes.
    fn taken(&self, count: u128) -> u128 {
        (count * self.width * self.cell + count.div_ceil(self.unit) * self.block)
            .next_multiple_of(LABEL)
    }

    /// The group that a stripe is in.
    fn group_of(&self, stripe: u128) -> Stripes {
        let before = stripe / self.group;
        let first = before * self.group;
        let count = self.group.min(self.stripes - first);
        Stripes { start: LABEL + before * self.taken(self.group), first, count }
    }

    fn cell_at(&self, row: u128, stripe: u128) -> u128 {
        let group = self.group_of(stripe);
        let cells = row * group.count + (stripe - group.first);
        group.start + cells * self.cell
    }

    fn block_at(&self, unit: u128) -> u128 {
        let group = self.group_of(unit * self.unit);
        let cells = group.count * self.width * self.cell;
        group.start + cells + (unit - group.first / self.unit) * self.block
    }

    /// Where the last group ends, and with it what lies between the labels.
    fn end(&self) -> u128 {
        let Some(last) = self.stripes.checked_sub(1) else { return LABEL };
        let group = self.group_of(last);
        group.start + self.taken(group.count)
    }
}

/// The stripes, the units and the bytes of an image.
pub fn image_bytes(layout: Layout) -> Image {
    let answer = refuse_layout(layout).answer();
    if answer != ACCEPTED {
        return Image { answer, ..Image::default() };
    }
    let numbers = Numbers::of(layout);
    let (stripes, units, end) = (numbers.stripes, numbers.units(), numbers.end());
    let (stripes, units) = (stripes as u64, units as u64);
    Image { answer, stripes, units, end: end as u64, bytes: (end + LABEL) as u64 }
}

fn placed(answer: Answer, at: impl FnOnce() -> (u128, u128)) -> Place {
    if answer != ACCEPTED {
        return Place { answer, ..Place::default() };
    }
    let (at, bytes) = at();
    Place { answer, at: at as u64, bytes: bytes as u64 }
}

/// The cell of a row of a stripe.
pub fn cell_place(layout: Layout, row: usize, stripe: u64) -> Place {
    let there = |_| row < layout.width && (stripe as u128) < Numbers::of(layout).stripes;
    let answer = refuse_layout(layout).when(26, |shape| !there(shape)).answer();
    placed(answer, || {
        let numbers = Numbers::of(layout);
        (numbers.cell_at(row as u128, stripe as u128), numbers.cell)
    })
}

/// The checksum block of a unit.
pub fn block_place(layout: Layout, unit: u64) -> Place {
    let over = |_| unit as u128 >= Numbers::of(layout).units();
    placed(refuse_layout(layout).when(26, over).answer(), || {
        let numbers = Numbers::of(layout);
        (numbers.block_at(unit as u128), numbers.block)
    })
}

/// The stripes of a unit, and its piece of a row: from its first cell to the end of its last.
pub fn unit_place(layout: Layout, row: usize, unit: u64) -> UnitPlace {
    let over = |_| row >= layout.width || unit as u128 >= Numbers::of(layout).units();
    let answer = refuse_layout(layout).when(26, over).answer();
    if answer != ACCEPTED {
        return UnitPlace { answer, ..UnitPlace::default() };
    }
    let numbers = Numbers::of(layout);
    let first = unit as u128 * numbers.unit;
    let last = (first + numbers.unit - 1).min(numbers.stripes - 1);
    let at = numbers.cell_at(row as u128, first);
    let bytes = numbers.cell_at(row as u128, last) + numbers.cell - at;
    let (first, stripes) = (first as u64, (last + 1 - first) as u64);
    UnitPlace { answer, first, stripes, at: at as u64, bytes: bytes as u64 }
}

/// Where a byte of film is: in a stripe the film goes disk by disk, on a disk row by row.
pub fn film_place(layout: Layout, byte: u64) -> FilmPlace {
    let answer = refuse_layout(layout).when(26, |_| byte >= layout.length).answer();
    if answer != ACCEPTED {
        return FilmPlace { answer, ..FilmPlace::default() };
    }
    let cell = byte / layout.cell_size as u64;
    let (row, column) = (cell % layout.width as u64, cell / layout.width as u64);
    let (disk, stripe) = (column % layout.disks as u64, column / layout.disks as u64);
    let within = byte % layout.cell_size as u64;
    let at = Numbers::of(layout).cell_at(row as u128, stripe as u128) + within as u128;
    let (disk, row) = (disk as usize, row as usize);
    FilmPlace { answer, stripe, disk, row, byte: within as usize, at: at as u64 }
}
