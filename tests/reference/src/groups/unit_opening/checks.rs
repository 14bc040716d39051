//! Units opened after damage: what comes back, what is marked, what is refused.

use super::calls::open_unit;
use super::model;
use crate::groups::rebuild_cells::patterns::pattern;
use crate::groups::unit_sums::units::Sealed;
use crate::harness::answer::ACCEPTED;
use crate::harness::{small_stack, Group, Lent, Random, Seen, Setting, Shape};

/// Random units.
const ROUNDS: usize = 20_000;

pub fn run(setting: &mut Setting, group: &mut Group) {
    let random = &mut setting.random;
    let mut seen = Seen::new("open_unit");
    for _ in 0..ROUNDS {
        opened(group, random, &mut seen);
        two_disks(group, random);
    }
    seen.each_came(group, &[0, 1, 2, 5, 13, 23, 24, 25]);
    little_stack(group, random);
}

/// Any damage and any marks; answer, cells, marks and all memory around are compared.
fn opened(group: &mut Group, random: &mut Random, seen: &mut Seen) {
    let mut one = Sealed::any(random);
    one.damage(random, 5);
    let mut marks = match random.below(3) {
        0 => vec![0; one.of().places()],
        _ => pattern(random, Shape::new(one.shape.width, one.shape.disks, 1)),
    };
    one.spoil(random);
    if random.once_in(30) {
        marks.push(0);
    }
    let (mut marks, mut cells) = (Lent::of(&marks, random), Lent::of(&one.cells, random));
    let (mut wanted_marks, mut wanted) = (marks.clone(), cells.clone());
    let got = open_unit(one.of(), &one.block, marks.part(), cells.part());
    let expected = model::open_unit(one.of(), &one.block, wanted_marks.part(), wanted.part());
    let call = || format!("open_unit({:?}, {}, unit {})", one.shape, one.stripes, one.unit);
    group.same(call, expected, got);
    group.same_bytes(|| call() + ", cells", wanted.whole(), cells.whole());
    group.same_bytes(|| call() + ", marks", wanted_marks.whole(), marks.whole());
    seen.note(got);
}

/// Pieces of two disks, lost or wrong, always come back, and no mark is left.
fn two_disks(group: &mut Group, random: &mut Random) {
    let mut one = Sealed::any(random);
    let (sealed, shape, piece) = (one.cells.clone(), one.shape, one.of().piece_length());
    let mut clean = vec![0; sealed.len()];
    clean.copy_from_slice(&sealed);
    crate::harness::model::encode(Shape { cell_size: piece, ..shape }, &mut clean);
    if clean != sealed {
        return; // not encoded
    }
    let mut marks = vec![0; one.of().places()];
    for _ in 0..2 {
        let disk = random.below(shape.disks + 2);
        let (first, last) = (disk * shape.width, (disk + 1) * shape.width);
        if random.once_in(2) {
            marks[first..last].fill(random.byte().max(1));
        }
        random.fill(&mut one.cells[first * piece..last * piece]);
    }
    let block = one.block.clone();
    let mut cells = one.cells.clone();
    let got = open_unit(one.of(), &block, &mut marks, &mut cells);
    let call = || format!("open_unit({shape:?}, {}), two disks", one.stripes);
    group.same(call, ACCEPTED, got);
    group.same(|| call() + ", as sealed", true, cells == sealed);
    group.same(|| call() + ", marks", true, marks.iter().all(|mark| *mark == 0));
}

/// The largest unit on a thread with little stack.
fn little_stack(group: &mut Group, random: &mut Random) {
    let shape = Shape::new(31, 31, 4_096);
    let mut one = Sealed { shape, stripes: 8, unit: 7, ..Sealed::any(random) };
    one.cells = vec![0; 31 * 33 * 32_768];
    one.block = vec![0; 31 * 33 * 8 + 8];
    let mut block = one.block.clone();
    crate::groups::unit_sums::model::seal_unit(one.of(), &one.cells, &mut block);
    let mut marks = vec![0; 31 * 33];
    marks[..62].fill(1);
    let mut cells = one.cells.clone();
    random.fill(&mut cells[..62 * 32_768]);
    let got = small_stack::run(|| open_unit(one.of(), &block, &mut marks, &mut cells));
    let call = || format!("open_unit({shape:?}, 8) on 64 KiB of stack");
    group.same(call, ACCEPTED, got);
    group.same(|| call() + ", as sealed", true, cells == one.cells);
}
