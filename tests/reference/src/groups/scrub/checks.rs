//! The scrub: clean stripes, one disk changed, two disks changed, columns exchanged, absent disks, and every stripe of
//! the smallest arrays with every column tried.

use super::calls::{scrub_stripe, Scrubbed};
use super::model::{self, found};
use super::refused;
use crate::groups::encode::calls::check_stripe;
use crate::groups::encode::model::clean;
use crate::groups::rebuild_one::calls::rebuild_one;
use crate::harness::answer::YES;
use crate::harness::model::{
    cell_place, column_length, disk_place, encode, full_shape, stripe_length, widened, Cell,
};
use crate::harness::stripes::{clean_stripe, EXAMPLE};
use crate::harness::{arrays, small_stack, Group, Lent, Random, Setting, Shape};

pub fn run(setting: &mut Setting, group: &mut Group) {
    let random = &mut setting.random;
    example(group, random);
    every_stripe(group, random, 2);
    every_stripe(group, random, 3);
    for (p, k) in arrays::some() {
        let sizes: &[usize] = if p <= 7 { &[1, 3, 64] } else { &[2] };
        for shape in sizes.iter().map(|s| Shape::new(p, k, *s)) {
            one_disk(group, random, shape);
            two_disks(group, random, shape);
            exchanged(group, random, shape);
            absent(group, random, shape);
        }
    }
    refused::run(group, random);
    little_stack(group, random);
}

/// Scrubs, and compares the answer and all memory around; gives the answer.
pub fn same_scrub(group: &mut Group, shape: Shape, lent: &mut Lent) -> Scrubbed {
    let mut before = lent.clone();
    let got = scrub_stripe(shape, lent.part());
    let expected = model::scrub_stripe(shape, before.part());
    let length = lent.part().len();
    let call = || format!("scrub_stripe({shape:?}, stripe of {length})");
    group.same(call, expected, got);
    group.same_stripe(|| format!("{}, memory", call()), shape, before.whole(), lent.whole());
    got
}

/// Scrubs a stripe of which the answer is known.
fn says(group: &mut Group, shape: Shape, lent: &mut Lent, expected: Scrubbed, what: &str) {
    let got = same_scrub(group, shape, lent);
    group.same(|| format!("scrub_stripe({shape:?}, {what})"), expected, got);
}

/// Changes a byte to another one.
fn change(random: &mut Random, byte: &mut u8) {
    *byte ^= 1 + random.below(255) as u8;
}

// One disk.

/// Document 01's stripe; then with a byte changed on disk 1, and one on disk 2 as well: bits 0x10 name disk 1 and bits
/// 0x20 disk 2, so neither explains both.
fn example(group: &mut Group, random: &mut Random) {
    let shape = Shape::full(3, 1);
    let mut lent = Lent::of(&EXAMPLE, random);
    says(group, shape, &mut lent, found(0, 0), "example");
    lent.part()[4] ^= 0x10;
    says(group, shape, &mut lent, found(1, 1), "example, (1, 1) changed");
    lent.part()[7] ^= 0x20;
    says(group, shape, &mut lent, found(2, 0), "example, (1, 1) and (1, 2) changed");
}

/// A clean stripe, then with every single cell changed, then with every whole disk changed.
fn one_disk(group: &mut Group, random: &mut Random, shape: Shape) {
    let mut lent = clean_stripe(random, shape);
    says(group, shape, &mut lent, found(0, 0), "clean");
    for disk in shape.all_disks() {
        for row in 0..shape.width {
            let cell = &mut lent.part()[cell_place(shape, (row, disk))];
            let (old, byte) = (cell.to_vec(), random.below(shape.cell_size));
            change(random, &mut cell[byte]);
            says(group, shape, &mut lent, found(1, disk), &format!("{:?} changed", (row, disk)));
            lent.part()[cell_place(shape, (row, disk))].copy_from_slice(&old);
        }
        whole_disk(group, random, shape, &mut lent, disk);
    }
    says(group, shape, &mut lent, found(0, 0), "clean again");
}

/// Noise on one disk; the library's rebuild of the disk that is named gives its bytes, and the stripe is clean again.
fn whole_disk(group: &mut Group, random: &mut Random, shape: Shape, lent: &mut Lent, disk: usize) {
    let place = disk_place(shape, disk);
    let old = lent.part()[place.clone()].to_vec();
    random.fill(&mut lent.part()[place.clone()]);
    let first = lent.part()[place.start] ^ old[0];
    lent.part()[place.start] ^= u8::from(first == 0);
    says(group, shape, lent, found(1, disk), &format!("disk {disk} changed"));
    let mut column = vec![0; column_length(shape)];
    rebuild_one(shape, disk, lent.part(), &mut column);
    group.same_column(|| format!("{shape:?}, disk {disk} named, rebuilt"), shape, &old, &column);
    lent.part()[place].copy_from_slice(&column);
    let clean = check_stripe(shape, lent.part()).clean;
    group.same(|| format!("{shape:?}, disk {disk} named, mended"), YES, clean);
}

// Two disks.

/// Pairs of disks: all for widths up to 7, else with neighbours and one other.
fn pairs(random: &mut Random, shape: Shape) -> Vec<[usize; 2]> {
    let count = shape.disks + 2;
    let every = (0..count).flat_map(|a| (a + 1..count).map(move |b| [a, b]));
    let chosen = |[a, b]: &[usize; 2]| shape.width <= 7 || *b == a + 1 || random.once_in(count);
    every.filter(chosen).collect()
}

/// A stripe that differs from a clean one on these two disks and no others: neither of the two alone explains it, since
/// clean stripes that differ do so on three disks. A disk that is named can be put right.
fn neither(group: &mut Group, shape: Shape, lent: &mut Lent, disks: [usize; 2], what: &str) {
    let got = same_scrub(group, shape, lent);
    let call = || format!("scrub_stripe({shape:?}), {what} on disks {disks:?}");
    group.same(|| format!("{}: clean", call()), false, got.verdict == 0);
    if got.verdict != 1 {
        return;
    }
    let third = shape.all_disks().contains(&got.disk) && !disks.contains(&got.disk);
    group.same(|| format!("{}: names a third disk", call()), true, third);
    if !third {
        return;
    }
    let mut mended = lent.part().to_vec();
    let mut column = vec![0; column_length(shape)];
    rebuild_one(shape, got.disk, &mended, &mut column);
    mended[disk_place(shape, got.disk)].copy_from_slice(&column);
    group.same(|| format!("{}: mended", call()), YES, check_stripe(shape, &mended).clean);
}

fn two_disks(group: &mut Group, random: &mut Random, shape: Shape) {
    let clean = clean_stripe(random, shape);
    for [a, b] in pairs(random, shape) {
        let cells: [Cell; 2] = [a, b].map(|disk| (random.below(shape.width), disk));
        two_cells(group, random, shape, clean.clone(), cells);
        one_position(group, random, shape, clean.clone(), cells);
        apart(group, random, shape, clean.clone(), cells);
        let mut lent = clean.clone();
        random.fill(&mut lent.part()[disk_place(shape, a)]);
        random.fill(&mut lent.part()[disk_place(shape, b)]);
        same_scrub(group, shape, &mut lent);
    }
}

/// Two cells on two disks, all bytes of them.
fn two_cells(
    group: &mut Group,
    random: &mut Random,
    shape: Shape,
    mut lent: Lent,
    cells: [Cell; 2],
) {
    for cell in cells {
        for byte in &mut lent.part()[cell_place(shape, cell)] {
            change(random, byte);
        }
    }
    neither(group, shape, &mut lent, cells.map(|cell| cell.1), "two cells");
}

/// Two bytes at one position of two cells, changed alike: where the cells are of one set, that set stays clean.
fn one_position(
    group: &mut Group,
    random: &mut Random,
    shape: Shape,
    mut lent: Lent,
    cells: [Cell; 2],
) {
    let (byte, bits) = (random.below(shape.cell_size), 1 + random.below(255) as u8);
    let same_row = [cells[0], (cells[0].0, cells[1].1)];
    for pair in [cells, same_row] {
        for cell in pair {
            lent.part()[cell_place(shape, cell)][byte] ^= bits;
        }
        neither(group, shape, &mut lent, pair.map(|cell| cell.1), "two bytes at one position");
        for cell in pair {
            lent.part()[cell_place(shape, cell)][byte] ^= bits;
        }
    }
}

/// Another byte, or another bit, of each of two cells: one names one disk, one the other, so none is named.
fn apart(group: &mut Group, random: &mut Random, shape: Shape, mut lent: Lent, cells: [Cell; 2]) {
    let (byte, bit) = (random.below(shape.cell_size), random.below(8));
    let [one, other] = cells.map(|cell| cell_place(shape, cell).start);
    let (second, shift) = ((byte + 1) % shape.cell_size, usize::from(shape.cell_size == 1));
    lent.part()[one + byte] ^= 1 << bit;
    lent.part()[other + second] ^= 1 << ((bit + shift) % 8);
    says(group, shape, &mut lent, found(2, 0), &format!("bits of {cells:?} apart"));
}

/// The columns of two disks exchanged, as by two drives in each other's place.
fn exchanged(group: &mut Group, random: &mut Random, shape: Shape) {
    let mut lent = clean_stripe(random, shape);
    for [a, b] in pairs(random, shape) {
        let [one, other] = [a, b].map(|disk| disk_place(shape, disk));
        let columns = [one.clone(), other.clone()].map(|place| lent.part()[place].to_vec());
        lent.part()[one.clone()].copy_from_slice(&columns[1]);
        lent.part()[other.clone()].copy_from_slice(&columns[0]);
        if columns[0] == columns[1] {
            says(group, shape, &mut lent, found(0, 0), "like columns exchanged");
        } else {
            neither(group, shape, &mut lent, [a, b], "columns exchanged");
        }
        lent.part()[one].copy_from_slice(&columns[0]);
        lent.part()[other].copy_from_slice(&columns[1]);
    }
}

// Absent disks, the smallest arrays.

/// Parity as if an absent disk held bytes: the full array names that disk, the array itself none.
fn absent(group: &mut Group, random: &mut Random, shape: Shape) {
    let full = full_shape(shape);
    for disk in shape.disks..shape.width {
        let mut lent = clean_stripe(random, shape);
        let mut wide = widened(shape, lent.part());
        for byte in &mut wide[disk_place(full, disk)] {
            change(random, byte);
        }
        encode(full, &mut wide);
        let parity = wide.len() - 2 * column_length(shape);
        let data = shape.data_length();
        lent.part()[data..].copy_from_slice(&wide[parity..]);
        says(group, shape, &mut lent, found(2, 0), &format!("parity with absent disk {disk}"));
        let got = scrub_stripe(full, &widened(shape, lent.part()));
        group.same(|| format!("{full:?}, zeros on disk {disk}"), found(1, disk), got);
    }
}

/// Every stripe of width 3 whose bytes are 0 or 1: what the documents say, by trying every column in the place of every
/// disk.
fn every_stripe(group: &mut Group, random: &mut Random, k: usize) {
    let shape = Shape::new(3, k, 1);
    let mut lent = Lent::noise(stripe_length(shape), random);
    for bits in 0..1u32 << stripe_length(shape) {
        for (i, byte) in lent.part().iter_mut().enumerate() {
            *byte = (bits >> i & 1) as u8;
        }
        let stripe = lent.part().to_vec();
        let expected = match clean(shape, &stripe) {
            true => found(0, 0),
            false => by_columns(shape, &stripe),
        };
        says(group, shape, &mut lent, expected, &format!("bits {bits:#b}"));
    }
}

fn by_columns(shape: Shape, stripe: &[u8]) -> Scrubbed {
    let some_column = |disk: &usize| {
        (0..8u8).any(|column| {
            let mut other = stripe.to_vec();
            for (row, byte) in other[disk_place(shape, *disk)].iter_mut().enumerate() {
                *byte = column >> row & 1;
            }
            clean(shape, &other)
        })
    };
    shape.all_disks().find(some_column).map_or(found(2, 0), |disk| found(1, disk))
}

// Stack.

/// The largest stripe, and one with fewer disks, on a thread with little stack: clean, Q changed, two disks changed.
fn little_stack(group: &mut Group, random: &mut Random) {
    for shape in [Shape::full(31, 4_096), Shape::new(29, 14, 4_096)] {
        let mut lent = clean_stripe(random, shape);
        let last = stripe_length(shape) - 1;
        on_little_stack(group, shape, &mut lent, found(0, 0));
        lent.part()[last] ^= 1;
        on_little_stack(group, shape, &mut lent, found(1, shape.disks + 1));
        lent.part()[0] ^= 2;
        on_little_stack(group, shape, &mut lent, found(2, 0));
    }
}

fn on_little_stack(group: &mut Group, shape: Shape, lent: &mut Lent, expected: Scrubbed) {
    let before = lent.clone();
    let stripe = lent.part();
    let got = small_stack::run(|| scrub_stripe(shape, stripe));
    let call = || format!("scrub_stripe({shape:?}) on 64 KiB of stack");
    group.same(call, expected, got);
    group.same_stripe(call, shape, before.whole(), lent.whole());
}
