//! The space of a package of files: examples, all boundaries, lists of files, refusals and random calls.

use super::calls::{package_space, Space};
use super::model::{self, MOST, MOST_FILES};
use crate::harness::answer::{yes, Answer, ACCEPTED};
use crate::harness::model::{column_length, WIDTHS};
use crate::harness::{arrays, numbers, Group, Random, Setting, Shape};

/// Accepted cell sizes whose boundaries are swept, and those for fewer data disks than rows.
const SIZES: [usize; 6] = [1, 2, 3, 7, 4_095, 4_096];
const PART_SIZES: [usize; 2] = [3, 4_096];

/// Random calls.
const ROUNDS: usize = 300_000;

/// Lengths before and after the lent ones: with one of them a package is too long.
const GUARD: u64 = u64::MAX;
const GUARDS: usize = 4;

pub fn run(setting: &mut Setting, group: &mut Group) {
    let random = &mut setting.random;
    accepted_examples(group);
    refused_examples(group);
    lists(group);
    refused_lists(group);
    for (p, k) in arrays::every() {
        let sizes: &[usize] = if k == p { &SIZES } else { &PART_SIZES };
        for &size in sizes {
            boundaries(group, random, Shape::new(p, k, size));
        }
    }
    refused_numbers(group);
    for _ in 0..ROUNDS {
        random_call(group, random);
    }
}

/// Compares the call with a given answer, and the lent list with what it was.
fn gives(group: &mut Group, shape: Shape, lengths: &[u64], free: u64, expected: Space) {
    let mut lent = vec![GUARD; GUARDS];
    lent.extend(lengths);
    lent.extend([GUARD; GUARDS]);
    let before = lent.clone();
    let got = package_space(shape, &lent[GUARDS..lent.len() - GUARDS], free);
    let name = || format!("package_space({shape:?}, {}, {free})", shown(lengths));
    group.same(name, expected, got);
    group.same(|| name() + ", the list", true, lent == before);
}

/// A list as a report shows it.
fn shown(lengths: &[u64]) -> String {
    match lengths {
        [first, second, .., last] if lengths.len() > 12 => {
            format!("[{first}, {second}, .., {last}; {} files]", lengths.len())
        }
        _ => format!("{lengths:?}"),
    }
}

/// Compares the call with the model.
fn same_space(group: &mut Group, shape: Shape, lengths: &[u64], free: u64) {
    let expected = model::package_space(shape, lengths, free);
    gives(group, shape, lengths, free, expected);
}

/// Compares a package with free bytes around its need, and far from it.
fn around_need(group: &mut Group, shape: Shape, lengths: &[u64]) {
    let need = model::package_space(shape, lengths, 0).bytes;
    let near = [need.wrapping_sub(1), need, need + 1];
    let far = [0, 1, need ^ (1 << 32), need + (1 << 32), need | (1 << 63), u64::MAX];
    for free in near.into_iter().chain(far) {
        same_space(group, shape, lengths, free);
    }
}

fn fitting(stripes: u64, bytes: u64, fits: bool) -> Space {
    Space { answer: ACCEPTED, stripes, bytes, fits: yes(fits) }
}

/// The examples of document 01 that are accepted, as packages of one file; with fewer data disks a stripe holds less.
fn accepted_examples(group: &mut Group) {
    let mut one = |shape, (length, free), expected| gives(group, shape, &[length], free, expected);
    let five = Shape::full(5, 4_096);
    one(five, (102_400, 20_480), fitting(1, 20_480, true));
    one(five, (102_400, 20_479), fitting(1, 20_480, false));
    one(five, (102_400, u64::MAX), fitting(1, 20_480, true));
    one(five, (102_401, 40_960), fitting(2, 40_960, true));
    one(five, (102_401, 40_959), fitting(2, 40_960, false));
    one(five, (0, 0), fitting(0, 0, true));
    one(Shape::full(31, 4_096), (1, 126_976), fitting(1, 126_976, true));
    let most = fitting(2_748_779_070, 56_294_995_353_600, false);
    one(five, (281_474_976_710_656, 0), most);
    let two_of_five = Shape::new(5, 2, 4_096);
    one(two_of_five, (40_960, 20_480), fitting(1, 20_480, true));
    one(two_of_five, (40_961, 40_959), fitting(2, 40_960, false));
    one(two_of_five, (102_400, u64::MAX), fitting(3, 61_440, true));
}

/// The examples of document 01 that are refused, and 13 among them.
fn refused_examples(group: &mut Group) {
    let over = MOST + 1;
    let examples = [
        ((5, 5, 4_096), over, 11),
        ((5, 5, 4_097), 102_400, 2),
        ((5, 5, 0), 102_400, 2),
        ((9, 9, 4_096), 102_400, 1),
        ((37, 37, 4_096), 102_400, 1),
        ((5, 5, 0), over, 2),
        ((9, 9, 0), over, 1),
        ((9, 9, 4_096), over, 1),
        ((5, 1, 4_096), 102_400, 13),
        ((5, 6, 4_096), 102_400, 13),
        ((5, 0, 0), over, 13),
        ((5, 6, 4_097), over, 13),
        ((9, 1, 0), over, 1),
    ];
    for ((width, disks, size), length, refusal) in examples {
        for free in [0, 20_480, u64::MAX] {
            gives(group, Shape::new(width, disks, size), &[length], free, refused(refusal));
        }
    }
}

fn refused(refusal: u8) -> Space {
    Space { answer: Answer::of(refusal), ..Space::default() }
}

/// What document 02 says of lists of files, without the model: each file on stripes of its own, none for an empty one.
fn lists(group: &mut Group) {
    let five = Shape::full(5, 4_096);
    let images = [1; 300];
    let many = [1 << 36; MOST_FILES];
    let examples: [(&[u64], u64); 9] = [
        (&[], 0),
        (&[0], 0),
        (&[0; MOST_FILES], 0),
        (&[0, 1, 0], 1),
        (&[102_400, 102_400], 2),
        (&[102_400, 1], 2),
        (&[102_401, 102_401], 4),
        (&images, 300),
        (&many, 4_096 * 671_089),
    ];
    for (lengths, stripes) in examples {
        let need = stripes * 20_480;
        gives(group, five, lengths, need, fitting(stripes, need, true));
        if need > 0 {
            gives(group, five, lengths, need - 1, fitting(stripes, need, false));
        }
    }
    // The most stripes that a package can take: the sum of lengths is 2^48, and every file but one has a byte alone on
    // its last stripe.
    for (p, k) in [(3, 2), (31, 31)] {
        for size in [1, 4_096] {
            let shape = Shape::new(p, k, size);
            let stripe = shape.data_length() as u64;
            let mut lengths = vec![stripe + 1; MOST_FILES - 1];
            lengths.push(MOST - (stripe + 1) * (MOST_FILES as u64 - 1));
            around_need(group, shape, &lengths);
        }
    }
}

/// Lists that are refused by 14 and 11, and those just within: sums that come to little once cut to 64 bits too.
fn refused_lists(group: &mut Group) {
    let five = Shape::full(5, 4_096);
    let half = 1 << 63;
    let mut over = vec![1 << 36; MOST_FILES];
    over[MOST_FILES - 1] += 1;
    let examples: [(&[u64], u8); 13] = [
        (&[u64::MAX; MOST_FILES], 11),
        (&over, 11),
        (&[half, half], 11),
        (&[u64::MAX, 1], 11),
        (&[u64::MAX, 102_401], 11),
        (&[0, MOST, 0, 1], 11),
        (&[1, 0, MOST], 11),
        (&[MOST + 1, 0], 11),
        (&[MOST, MOST], 11),
        (&[0; MOST_FILES + 1], 14),
        (&[u64::MAX; MOST_FILES + 1], 14),
        (&[1; MOST_FILES + 1], 14),
        (&[0; 3 * MOST_FILES], 14),
    ];
    for (lengths, refusal) in examples {
        for free in [0, u64::MAX] {
            gives(group, five, lengths, free, refused(refusal));
        }
    }
}

/// Packages that fill n stripes, miss one byte of that, or have one too many; as one file, and with others beside it.
fn boundaries(group: &mut Group, random: &mut Random, shape: Shape) {
    let stripe = shape.data_length() as u64;
    for n in stripe_counts(random, shape) {
        for length in [(n * stripe).wrapping_sub(1), n * stripe, n * stripe + 1] {
            around_need(group, shape, &[length]);
            same_space(group, shape, &[length, length], random.next());
            same_space(group, shape, &[0, length, stripe, length, 1], random.next());
        }
    }
    for length in [MOST - 1, MOST, MOST + 1, MOST + stripe, MOST << 1, 1 << 63, u64::MAX] {
        around_need(group, shape, &[length]);
        around_need(group, shape, &[length, 0]);
        around_need(group, shape, &[1, length]);
    }
}

/// Counts of stripes up to one more than the largest package fills, with those
/// where the stripes, the bytes of a disk or the package's reach 2^16, 2^31 or 2^32.
fn stripe_counts(random: &mut Random, shape: Shape) -> Vec<u64> {
    let column = column_length(shape) as u64;
    let stripe = shape.data_length() as u64;
    let largest = MOST / stripe;
    let mut counts = vec![0, 1, 2, 3, 10, 1_000, largest - 1, largest, largest + 1];
    for edge in [1 << 16, 1 << 31, 1 << 32] {
        for n in [edge, edge / column, edge / stripe] {
            counts.extend([n.max(1) - 1, n, n + 1]);
        }
    }
    counts.extend((0..8).map(|_| random.next() % largest));
    counts.retain(|n| *n <= largest + 1);
    counts
}

/// Every mix of refused and accepted widths, data disks, sizes and lists.
fn refused_numbers(group: &mut Group) {
    let lists: [&[u64]; 7] =
        [&[], &[0, 1], &[102_400], &[MOST], &[MOST, 1], &[1 << 63, 1 << 63], &[0; MOST_FILES + 1]];
    let mut shapes = numbers::any_shapes();
    for width in numbers::any_widths() {
        shapes.extend(numbers::any_sizes().into_iter().map(|size| Shape::full(width, size)));
    }
    for shape in shapes {
        for lengths in lists {
            same_space(group, shape, lengths, 0);
            same_space(group, shape, lengths, u64::MAX);
        }
    }
}

/// A random package, mostly accepted, of few or many files, short or long, with free bytes near its need.
fn random_call(group: &mut Group, random: &mut Random) {
    let shape = random_shape(random);
    let lengths = random_lengths(random);
    let need = model::package_space(shape, &lengths, 0).bytes;
    let free = match random.below(3) {
        0 => (need + random.below(4) as u64).saturating_sub(2),
        1 => random.next() >> random.below(64),
        _ => random.next() % (2 * need + 1),
    };
    same_space(group, shape, &lengths, free);
    one_file(group, shape, &lengths);
}

/// Few files, or now and then about as many as there may be.
fn random_lengths(random: &mut Random) -> Vec<u64> {
    let files = match random.below(300) {
        0 => MOST_FILES - 2 + random.below(5),
        1..=9 => random.below(400),
        _ => random.below(7),
    };
    let longest = 15 + random.below(40);
    (0..files).map(|_| random.next() >> (longest + random.below(64 - longest))).collect()
}

/// The files take no fewer stripes than their sum as one file, and for each file that is not empty less than one more.
fn one_file(group: &mut Group, shape: Shape, lengths: &[u64]) {
    let got = package_space(shape, lengths, 0);
    if got.answer != ACCEPTED {
        return;
    }
    let total: u64 = lengths.iter().sum();
    let stripe = shape.data_length() as u64;
    let least = package_space(shape, &[total], 0).stripes;
    let filled = lengths.iter().filter(|length| **length > 0).count() as u64;
    let within = least <= got.stripes && got.stripes * stripe <= total + filled * (stripe - 1);
    group.same(|| format!("package_space({shape:?}, {}), one file", shown(lengths)), true, within);
}

/// Mostly accepted numbers; data disks from one too few to one too many.
fn random_shape(random: &mut Random) -> Shape {
    let p = *random.pick(&WIDTHS);
    let disks = if random.once_in(2) { p } else { 1 + random.below(p + 1) };
    Shape::new(p, disks, random.below(4_100))
}
