//! Random patterns of missing cells: bytes, not 0 where a cell is missing.

use crate::harness::{Random, Shape};

/// A pattern of one of several sorts, most of them near the limit of what can be mended.
pub fn pattern(random: &mut Random, shape: Shape) -> Vec<u8> {
    let Shape { width: p, disks: k, .. } = shape;
    let mut marks = vec![0; p * (k + 2)];
    match random.below(8) {
        0 => some_cells(&mut marks, random, 4),
        1 => some_cells(&mut marks, random, p + 1),
        2 => some_cells(&mut marks, random, 2 * p + 2),
        3 => {
            whole_disk(&mut marks, random, p);
            some_cells(&mut marks, random, 3);
        }
        4 => {
            whole_disk(&mut marks, random, p);
            some_cells(&mut marks, random, p + 1);
        }
        5 => two_disks(&mut marks, random, p),
        6 => {
            two_disks(&mut marks, random, p);
            let place = random.below(marks.len());
            marks[place] = 1;
        }
        _ => marks.fill_with(|| u8::from(random.once_in(2)) * random.byte()),
    }
    marks
}

/// Up to so many cells, each with a byte that is not 0.
fn some_cells(marks: &mut [u8], random: &mut Random, most: usize) {
    for _ in 0..random.below(most + 1) {
        let place = random.below(marks.len());
        marks[place] = random.byte().max(1);
    }
}

fn whole_disk(marks: &mut [u8], random: &mut Random, p: usize) {
    let disk = random.below(marks.len() / p);
    marks[disk * p..(disk + 1) * p].fill(random.byte().max(1));
}

/// Two disks, whole or in part; the same one twice now and then.
fn two_disks(marks: &mut [u8], random: &mut Random, p: usize) {
    whole_disk(marks, random, p);
    whole_disk(marks, random, p);
    if random.once_in(3) {
        marks.iter_mut().filter(|_| random.once_in(2)).for_each(|mark| *mark = 0);
    }
}
