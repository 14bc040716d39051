//! Film of damaged units, from any byte on.

use super::calls::film_bytes;
use super::model;
use crate::groups::unit_sums::units::Sealed;
use crate::harness::{Group, Lent, Random, Seen, Setting};

/// Random units, and calls on each.
const ROUNDS: usize = 20_000;
const CALLS: usize = 4;

pub fn run(setting: &mut Setting, group: &mut Group) {
    let random = &mut setting.random;
    let mut seen = Seen::new("film_bytes");
    for _ in 0..ROUNDS {
        let mut one = Sealed::any(random);
        one.damage(random, 3);
        let parts: Vec<_> = (0..CALLS).map(|_| stretch(random, &one)).collect();
        one.spoil(random);
        for part in parts {
            handed(group, random, &one, part, &mut seen);
        }
    }
    seen.each_came(group, &[0, 1, 2, 5, 13, 24, 25]);
}

/// Some film of a unit, few bytes or many; now and then past its end.
fn stretch(random: &mut Random, one: &Sealed) -> (usize, usize) {
    let film = one.shape.disks * one.shape.width * one.of().piece_length();
    let most = if random.once_in(2) { film } else { film.min(3 * one.shape.cell_size) };
    let length = random.below(most + 1);
    let from = random.below(film - length + 1);
    match random.below(30) {
        0 => (film - length + 1, length),
        1 => (usize::MAX - random.below(3), length),
        2 => (film, 0),
        _ => (from, length),
    }
}

fn handed(
    group: &mut Group,
    random: &mut Random,
    one: &Sealed,
    (from, length): (usize, usize),
    seen: &mut Seen,
) {
    let mut out = Lent::noise(length, random);
    let mut wanted = out.clone();
    let got = film_bytes(one.of(), &one.block, &one.cells, from, out.part());
    let expected = model::film_bytes(one.of(), &one.block, &one.cells, from, wanted.part());
    let call = || format!("film_bytes({:?}, {}, {from}, {length})", one.shape, one.stripes);
    group.same(call, expected, got);
    group.same_bytes(|| call() + ", film", wanted.whole(), out.whole());
    seen.note(got);
}
