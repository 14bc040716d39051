//! Stripes as they are encoded, and lost disks of them.

use super::file::{bytes_of, Line};
use crate::groups::encode;
use crate::groups::encode::calls::{check_stripe, encode_stripe, Checked};
use crate::groups::rebuild_balanced::calls::rebuild_balanced;
use crate::groups::rebuild_one::{self, calls::rebuild_one};
use crate::groups::rebuild_two::calls::rebuild_two;
use crate::harness::answer::{Answer, ACCEPTED, YES};
use crate::harness::model::{column_length, disk_place};
use crate::harness::{Group, Lent, Random, Shape};

type Encode = fn(Shape, &mut [u8]) -> Answer;
type Check = fn(Shape, &[u8]) -> Checked;
type Rebuild = fn(Shape, usize, &[u8], &mut [u8]) -> Answer;

// The library's calls, and the model's, so that what Jerasure made is compared with both.
const ENCODES: [(&str, Encode); 2] =
    [("encode_stripe", encode_stripe), ("the model's encode", encode::model::encode_stripe)];
const CHECKS: [(&str, Check); 2] =
    [("check_stripe", check_stripe), ("the model's check", encode::model::check_stripe)];
const REBUILDS: [(&str, Rebuild); 2] =
    [("rebuild_one", rebuild_one), ("the model's rebuild", rebuild_one::model::rebuild_one)];

/// The data with random bytes for P and Q becomes the stripe, and the stripe is clean.
pub fn encoded(group: &mut Group, random: &mut Random, line: &Line) {
    let shape = line.shape;
    for (name, call) in ENCODES {
        let mut lent = Lent::of(&line.stripe, random);
        random.fill(&mut lent.part()[shape.data_length()..]);
        group.same(|| line.name(name), ACCEPTED, call(shape, lent.part()));
        group.same_stripe(|| line.name(name), shape, &line.stripe, lent.part());
    }
    for (name, call) in CHECKS {
        let clean = Checked { answer: ACCEPTED, clean: YES };
        group.same(|| line.name(name), clean, call(shape, &line.stripe));
    }
}

/// A lost disk comes back.
pub fn one(group: &mut Group, random: &mut Random, line: &Line) {
    let disk = line.count(1);
    let column = line.stripe[disk_place(line.shape, disk)].to_vec();
    for (name, call) in REBUILDS {
        rebuilt(group, random, line, (name, call), &column);
    }
}

/// What a plan's steps make of a disk of a dirty stripe.
pub fn by_plan(group: &mut Group, random: &mut Random, line: &Line) {
    let call: (&str, Rebuild) = match line.words[0] {
        "own" => ("rebuild_one", rebuild_one),
        _ => ("rebuild_balanced", rebuild_balanced),
    };
    rebuilt(group, random, line, call, &bytes_of(line.words[2]));
}

fn rebuilt(
    group: &mut Group,
    random: &mut Random,
    line: &Line,
    (name, call): (&str, Rebuild),
    wanted: &[u8],
) {
    let (shape, disk) = (line.shape, line.count(1));
    let mut stripe = Lent::of(&line.stripe, random);
    random.fill(&mut stripe.part()[disk_place(shape, disk)]);
    let mut column = Lent::noise(column_length(shape), random);
    let got = call(shape, disk, stripe.part(), column.part());
    group.same(|| line.name(name), ACCEPTED, got);
    group.same_column(|| line.name(name), shape, wanted, column.part());
}

/// Two lost disks come back, in either order.
pub fn two(group: &mut Group, random: &mut Random, line: &Line) {
    let shape = line.shape;
    for (first, second) in [(line.count(1), line.count(2)), (line.count(2), line.count(1))] {
        let mut stripe = Lent::of(&line.stripe, random);
        random.fill(&mut stripe.part()[disk_place(shape, first)]);
        random.fill(&mut stripe.part()[disk_place(shape, second)]);
        let got = rebuild_two(shape, first, second, stripe.part());
        group.same(|| line.name("rebuild_two"), ACCEPTED, got);
        group.same_stripe(|| line.name("rebuild_two"), shape, &line.stripe, stripe.part());
    }
}
