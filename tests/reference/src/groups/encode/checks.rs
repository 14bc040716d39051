//! Encoding and the check: random stripes, flipped bits, the full array's stripes and refused calls.

use super::calls::{check_stripe, encode_stripe, Checked};
use super::model;
use crate::harness::answer::{yes, Answer, Yes, ACCEPTED, NO, YES};
use crate::harness::model::{
    cell_place, column_length, diagonal_set, disk_place, full_shape, row_set, stripe_length,
    widened, Cell,
};
use crate::harness::stripes::{clean_stripe, shapes, EXAMPLE, PART_EXAMPLE};
use crate::harness::{arrays, numbers, small_stack, Group, Lent, Random, Setting, Shape};

pub fn run(setting: &mut Setting, group: &mut Group) {
    let random = &mut setting.random;
    example(group, random, Shape::full(3, 1), &EXAMPLE);
    example(group, random, Shape::new(3, 2, 1), &PART_EXAMPLE);
    for shape in shapes() {
        encoded(group, random, shape);
        clean_and_dirty(group, random, shape);
        beside_full(group, random, shape);
        wrong_lengths(group, random, shape);
    }
    for (p, k) in arrays::every() {
        encoded(group, random, Shape::new(p, k, 2));
        beside_full(group, random, Shape::new(p, k, 2));
        clean_and_dirty(group, random, Shape::new(p, k, 2));
    }
    for (p, k) in arrays::some() {
        flips(group, random, p, k);
        if k == p || p <= 7 {
            wrong_sizes(group, random, p, k);
        }
    }
    refused_numbers(group, random);
    little_stack(group, random);
}

/// Flipped bits, with fewer cell sizes where there are fewer data disks than rows.
fn flips(group: &mut Group, random: &mut Random, p: usize, k: usize) {
    let [bytes, parities, pairs]: [&[usize]; 3] = match k == p {
        true => [&[1, 2, 3], &[7, 8, 64], &[1, 3, 64]],
        false => [&[1], &[8], &[3]],
    };
    for &s in bytes {
        every_byte_flipped(group, random, Shape::new(p, k, s));
    }
    for &s in parities {
        every_parity_flipped(group, random, Shape::new(p, k, s));
    }
    for &s in pairs {
        two_flipped(group, random, Shape::new(p, k, s));
    }
}

// Calls.

/// Encodes, and compares the answer and all memory around.
fn same_encode(group: &mut Group, shape: Shape, lent: &mut Lent) {
    let mut wanted = lent.clone();
    let got = encode_stripe(shape, lent.part());
    let expected = model::encode_stripe(shape, wanted.part());
    let length = wanted.part().len();
    let call = || format!("encode_stripe({shape:?}, stripe of {length})");
    group.same(call, expected, got);
    group.same_stripe(|| format!("{}, memory", call()), shape, wanted.whole(), lent.whole());
}

/// Checks, and compares the answer and all memory around; gives the answer.
fn same_check(group: &mut Group, shape: Shape, lent: &mut Lent) -> Checked {
    let mut before = lent.clone();
    let got = check_stripe(shape, lent.part());
    let expected = model::check_stripe(shape, before.part());
    let length = lent.part().len();
    let call = || format!("check_stripe({shape:?}, stripe of {length})");
    group.same(call, expected, got);
    group.same_stripe(|| format!("{}, memory", call()), shape, before.whole(), lent.whole());
    got
}

/// Checks an accepted stripe that is known to be clean or not.
fn says(group: &mut Group, shape: Shape, lent: &mut Lent, clean: bool, what: &str) {
    let got = same_check(group, shape, lent);
    let expected = Checked { answer: ACCEPTED, clean: yes(clean) };
    group.same(|| format!("check_stripe({shape:?}, {what})"), expected, got);
}

// Accepted calls.

/// A stripe of size 1 whose P and Q are known.
fn example(group: &mut Group, random: &mut Random, shape: Shape, stripe: &[u8]) {
    let (data, length) = (shape.data_length(), stripe.len());
    let mut lent = Lent::noise(length, random);
    lent.part()[..data].copy_from_slice(&stripe[..data]);
    same_encode(group, shape, &mut lent);
    group.same_stripe(|| format!("encode_stripe({shape:?}, example)"), shape, stripe, lent.part());
    says(group, shape, &mut lent, true, "example");
    let got = encode_stripe(shape, &mut vec![0; length - 1]);
    group.same(|| format!("encode_stripe({shape:?}, a byte short)"), Answer::of(5), got);
    let got = check_stripe(shape, &vec![0; length - 1]);
    let refused = Checked { answer: Answer::of(5), clean: NO };
    group.same(|| format!("check_stripe({shape:?}, a byte short)"), refused, got);
}

/// Encodes random bytes; the data stay, and P and Q do not depend on what
/// stood there.
fn encoded(group: &mut Group, random: &mut Random, shape: Shape) {
    let data = shape.data_length();
    let mut lent = Lent::noise(stripe_length(shape), random);
    let before = lent.part()[..data].to_vec();
    same_encode(group, shape, &mut lent);
    let say = |what: &str| format!("encode_stripe({shape:?}, random), {what}");
    group.same_bytes(|| say("data"), &before, &lent.part()[..data]);
    let first = lent.part().to_vec();
    random.fill(&mut lent.part()[data..]);
    same_encode(group, shape, &mut lent);
    group.same_stripe(|| say("again with other P and Q"), shape, &first, lent.part());
    says(group, shape, &mut lent, true, "what the library encoded");
}

/// Clean stripes, one bit flipped in a disk, and random bytes.
fn clean_and_dirty(group: &mut Group, random: &mut Random, shape: Shape) {
    let mut lent = clean_stripe(random, shape);
    says(group, shape, &mut lent, true, "clean");
    for disk in flipped_disks(random, shape) {
        let place = disk_place(shape, disk).start + random.below(column_length(shape));
        flipped(group, random, shape, &mut lent, place);
    }
    random.fill(lent.part());
    says(group, shape, &mut lent, false, "random bytes");
    lent.part().fill(0);
    says(group, shape, &mut lent, true, "zeros");
}

/// Every disk; for most widths fewer where the cells are large.
fn flipped_disks(random: &mut Random, shape: Shape) -> Vec<usize> {
    let Shape { width: p, disks: k, cell_size: s } = shape;
    if s < 4_096 || p <= 7 || (p, k) == (31, 31) {
        shape.all_disks().collect()
    } else {
        vec![random.below(k), k, k + 1]
    }
}

/// Absent disks count as zero: to encode and then put zeros in their place is to put them and
/// then encode, and the check says of both stripes the same.
fn beside_full(group: &mut Group, random: &mut Random, shape: Shape) {
    let full = full_shape(shape);
    if shape == full {
        return;
    }
    let mut stripe = Lent::noise(stripe_length(shape), random);
    same_verdict(group, shape, stripe.part(), NO);
    let mut wide = widened(shape, stripe.part());
    let answers = (encode_stripe(shape, stripe.part()), encode_stripe(full, &mut wide));
    let say = || format!("encode_stripe({shape:?}), beside the full array's");
    group.same(say, (ACCEPTED, ACCEPTED), answers);
    group.same_stripe(say, full_shape(shape), &wide, &widened(shape, stripe.part()));
    same_verdict(group, shape, stripe.part(), YES);
    for disk in [random.below(shape.disks), shape.disks, shape.disks + 1] {
        let place = disk_place(shape, disk).start + random.below(column_length(shape));
        stripe.part()[place] ^= 1 << random.below(8);
        same_verdict(group, shape, stripe.part(), NO);
        encode_stripe(shape, stripe.part());
    }
}

/// A stripe and the full array's are both clean or both not.
fn same_verdict(group: &mut Group, shape: Shape, stripe: &[u8], clean: Yes) {
    let wide = check_stripe(full_shape(shape), &widened(shape, stripe));
    let got = (check_stripe(shape, stripe), wide);
    let expected = Checked { answer: ACCEPTED, clean };
    let say = || format!("check_stripe({shape:?}), and with zeros for the absent disks");
    group.same(say, (expected, expected), got);
}

/// A clean stripe with a random bit of one byte flipped; it is flipped back.
fn flipped(group: &mut Group, random: &mut Random, shape: Shape, lent: &mut Lent, place: usize) {
    let bit = 1 << random.below(8);
    lent.part()[place] ^= bit;
    says(group, shape, lent, false, &format!("clean but for bits {bit:#x} of byte {place}"));
    lent.part()[place] ^= bit;
}

fn every_byte_flipped(group: &mut Group, random: &mut Random, shape: Shape) {
    let mut lent = clean_stripe(random, shape);
    for place in 0..stripe_length(shape) {
        flipped(group, random, shape, &mut lent, place);
    }
}

/// The first and last byte of each parity cell: one set alone is dirty.
fn every_parity_flipped(group: &mut Group, random: &mut Random, shape: Shape) {
    let mut lent = clean_stripe(random, shape);
    for disk in [shape.disks, shape.disks + 1] {
        for row in 0..shape.width {
            let cell = cell_place(shape, (row, disk));
            flipped(group, random, shape, &mut lent, cell.start);
            flipped(group, random, shape, &mut lent, cell.end - 1);
        }
    }
}

fn flip(lent: &mut Lent, places: [usize; 2], bit: u8) {
    for place in places {
        lent.part()[place] ^= bit;
    }
}

/// One bit flipped at the same place of two cells of a row, of a diagonal, of
/// P, of Q: some sets stay clean, and all sums together may be zero.
fn two_flipped(group: &mut Group, random: &mut Random, shape: Shape) {
    let Shape { width: p, disks: k, cell_size: s } = shape;
    let mut lent = clean_stripe(random, shape);
    let mut lists: Vec<Vec<Cell>> = Vec::new();
    for i in 0..p {
        lists.extend([row_set(k, i), diagonal_set(p, k, i)]);
    }
    lists.extend([k, k + 1].map(|disk| (0..p).map(|row| (row, disk)).collect()));
    for cells in lists {
        let first = random.below(cells.len());
        let second = (first + 1 + random.below(cells.len() - 1)) % cells.len();
        let (byte, bit) = (random.below(s), 1 << random.below(8));
        let places = [first, second].map(|n| cell_place(shape, cells[n]).start + byte);
        flip(&mut lent, places, bit);
        says(group, shape, &mut lent, false, &format!("bits {bit:#x} of bytes {places:?} flipped"));
        flip(&mut lent, places, bit);
    }
    says(group, shape, &mut lent, true, "clean again");
}

// Refused calls.

/// Both calls on random bytes of that length.
fn both(group: &mut Group, random: &mut Random, shape: Shape, length: usize) {
    let mut lent = Lent::noise(length, random);
    same_check(group, shape, &mut lent);
    same_encode(group, shape, &mut lent);
    same_check(group, shape, &mut lent);
}

fn wrong_lengths(group: &mut Group, random: &mut Random, shape: Shape) {
    let right = stripe_length(shape);
    let (column, s) = (column_length(shape), shape.cell_size);
    let parity = disk_place(shape, shape.disks);
    let mut lengths = vec![0, 1, column, parity.start, parity.end, right - 1, right + 1];
    lengths.extend([right - s, right + s, right - column, right + column, 2 * right]);
    lengths.extend([stripe_length(full_shape(shape)), right / s * (s + 1)]);
    lengths.retain(|length| *length != right);
    for length in lengths {
        both(group, random, shape, length);
    }
}

/// Sizes just out of range, with the length that would be right.
fn wrong_sizes(group: &mut Group, random: &mut Random, p: usize, k: usize) {
    for size in [0, 4_097] {
        let shape = Shape::new(p, k, size);
        both(group, random, shape, stripe_length(shape));
    }
}

/// Every mix of widths and sizes, and of widths and data disks, with lengths that are right once they are cut.
fn refused_numbers(group: &mut Group, random: &mut Random) {
    let mut shapes = numbers::any_shapes();
    for width in numbers::any_widths() {
        shapes.extend(numbers::any_sizes().into_iter().map(|size| Shape::full(width, size)));
    }
    for shape in shapes {
        let [one, other] = numbers::cut_shapes(shape).map(stripe_length);
        for length in [0, one, other, numbers::wrapped_length(shape)] {
            both(group, random, shape, length);
        }
    }
}

// Stack.

/// The largest stripe, and one with fewer disks, on a thread with little stack.
fn little_stack(group: &mut Group, random: &mut Random) {
    for shape in [Shape::full(31, 4_096), Shape::new(29, 14, 4_096)] {
        on_little_stack(group, random, shape);
    }
}

fn on_little_stack(group: &mut Group, random: &mut Random, shape: Shape) {
    let mut lent = Lent::noise(stripe_length(shape), random);
    let mut wanted = lent.clone();
    let stripe = lent.part();
    let got = small_stack::run(|| encode_stripe(shape, stripe));
    let expected = model::encode_stripe(shape, wanted.part());
    let call = |name: &str| format!("{name}({shape:?}, stripe) on 64 KiB of stack");
    group.same(|| call("encode_stripe"), expected, got);
    group.same_stripe(|| call("encode_stripe"), shape, wanted.whole(), lent.whole());
    let stripe = lent.part();
    let got = small_stack::run(|| check_stripe(shape, stripe));
    let expected = Checked { answer: ACCEPTED, clean: YES };
    group.same(|| call("check_stripe"), expected, got);
    group.same_stripe(|| call("check_stripe"), shape, wanted.whole(), lent.whole());
}
