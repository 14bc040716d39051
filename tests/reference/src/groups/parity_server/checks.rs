//! A parity server: what is written, every server lost with each kind of loss on the others, dirty stripes, and mended
//! servers beside the calls that rebuild one disk and two.

use super::calls::{rebuild_server, write_server};
use super::model::{self, server_place, NONE};
use super::refused;
use crate::groups::encode::model::clean;
use crate::groups::rebuild_one::calls::rebuild_one;
use crate::groups::rebuild_two::calls::rebuild_two;
use crate::harness::answer::{Answer, ACCEPTED};
use crate::harness::model::{column_length, disk_place, stripe_length};
use crate::harness::stripes::clean_stripe;
use crate::harness::{arrays, small_stack, Group, Lent, Random, Setting, Shape};

pub fn run(setting: &mut Setting, group: &mut Group) {
    let random = &mut setting.random;
    example(group, random);
    for (p, k) in arrays::some() {
        let sizes: &[usize] = if p <= 7 { &[1, 3, 64] } else { &[2] };
        for shape in sizes.iter().map(|s| Shape::new(p, k, *s)) {
            for servers in [2, 3 + random.below(13)] {
                written(group, random, shape, servers);
                each_server(group, random, shape, servers);
            }
        }
        each_kind(group, random, Shape::new(p, k, 1));
    }
    for servers in 2..=16 {
        each_server(group, random, Shape::new(5, 4, 7), servers);
        written(group, random, Shape::new(5, 4, 7), servers);
    }
    large(group, random);
    refused::run(group, random);
    little_stack(group, random);
}

/// A rebuild by both, compared: the answer, the stripes, the losses and all memory around; gives the answer.
pub fn same_rebuild(
    group: &mut Group,
    (shape, servers, lost): (Shape, usize, usize),
    stripes: &mut Lent,
    losses: &mut Lent,
) -> Answer {
    let (mut wanted, mut before) = (stripes.clone(), losses.clone());
    let got = rebuild_server(shape, servers, lost, stripes.part(), losses.part());
    let expected = model::rebuild_server(shape, servers, lost, wanted.part(), before.part());
    let pairs = before.part().to_vec();
    let call = || format!("rebuild_server({shape:?}, {servers}, {lost}), losses {pairs:?}");
    group.same(call, expected, got);
    group.same_stripe(|| format!("{}, stripes", call()), shape, wanted.whole(), stripes.whole());
    group.same_bytes(|| format!("{}, losses", call()), before.whole(), losses.whole());
    got
}

/// A write by both, compared likewise.
pub fn same_write(group: &mut Group, shape: Shape, servers: usize, stripes: &mut Lent) -> Answer {
    let mut wanted = stripes.clone();
    let got = write_server(shape, servers, stripes.part());
    let expected = model::write_server(shape, servers, wanted.part());
    let length = stripes.part().len();
    let call = || format!("write_server({shape:?}, {servers}), stripes of {length} bytes");
    group.same(call, expected, got);
    group.same_stripe(|| format!("{}, stripes", call()), shape, wanted.whole(), stripes.whole());
    got
}

/// All servers clean, and the extra one the XOR of the rest, by the model.
fn clean_servers(random: &mut Random, shape: Shape, servers: usize) -> Lent {
    let mut stripes = Lent::noise((servers + 1) * stripe_length(shape), random);
    for server in 0..servers {
        let mut stripe = clean_stripe(random, shape);
        stripes.part()[server_place(shape, server)].copy_from_slice(stripe.part());
    }
    model::write_server(shape, servers, stripes.part());
    stripes
}

/// No losses, one in either byte, or two, for each server.
pub fn any_losses(random: &mut Random, shape: Shape, servers: usize) -> Vec<u8> {
    (0..=servers).flat_map(|_| any_pair(random, shape)).collect()
}

fn any_pair(random: &mut Random, shape: Shape) -> [u8; 2] {
    let disks = shape.disks + 2;
    let first = random.below(disks);
    let second = (first + 1 + random.below(disks - 1)) % disks;
    let [first, second] = [first as u8, second as u8];
    [[NONE, NONE], [first, NONE], [NONE, second], [first, second]][random.below(4)]
}

/// Scrambles the lost disks, and the lost server whole.
fn lose(random: &mut Random, shape: Shape, lost: usize, stripes: &mut Lent, losses: &[u8]) {
    random.fill(&mut stripes.part()[server_place(shape, lost)]);
    for (place, disk) in losses.iter().enumerate().filter(|(_, disk)| **disk != NONE) {
        if place / 2 != lost {
            let stripe = &mut stripes.part()[server_place(shape, place / 2)];
            random.fill(&mut stripe[disk_place(shape, *disk as usize)]);
        }
    }
}

// Accepted calls.

/// Three rows, two data disks, two servers; the stripes and what was lost come from a program of its own.
fn example(group: &mut Group, random: &mut Random) {
    let shape = Shape::new(3, 2, 1);
    let good = [
        130, 183, 14, 238, 127, 26, 108, 200, 20, 253, 210, 224, // server 0
        80, 57, 190, 240, 126, 194, 160, 71, 124, 46, 133, 78, // server 1
        210, 142, 176, 30, 1, 216, 204, 143, 104, 211, 87, 174, // the extra one
    ];
    let bad = [
        52, 127, 6, 110, 208, 143, 108, 200, 20, 253, 210, 224, // both data disks lost
        93, 199, 81, 36, 71, 227, 64, 67, 0, 2, 107, 110, // lost whole
        210, 142, 176, 30, 1, 216, 204, 143, 104, 84, 85, 148, // Q lost
    ];
    let mut stripes = Lent::of(&bad, random);
    let mut losses = Lent::of(&[0, 1, 200, 200, NONE, 3], random);
    same_rebuild(group, (shape, 2, 1), &mut stripes, &mut losses);
    group.same_stripe(|| "rebuild_server(example)".into(), shape, &good, stripes.part());
    let mut stripes = Lent::of(&good, random);
    random.fill(&mut stripes.part()[24..]);
    same_write(group, shape, 2, &mut stripes);
    group.same_stripe(|| "write_server(example)".into(), shape, &good, stripes.part());
}

/// The extra stripe over clean and over dirty ones; over clean ones it is clean.
fn written(group: &mut Group, random: &mut Random, shape: Shape, servers: usize) {
    let mut stripes = clean_servers(random, shape, servers);
    random.fill(&mut stripes.part()[server_place(shape, servers)]);
    same_write(group, shape, servers, &mut stripes);
    let extra = &stripes.part()[server_place(shape, servers)];
    group.same(|| format!("write_server({shape:?}, {servers}), clean"), true, clean(shape, extra));
    let mut dirty = Lent::noise((servers + 1) * stripe_length(shape), random);
    same_write(group, shape, servers, &mut dirty);
}

/// Every server lost in turn, with losses of any kind on the others: clean ones come back, dirty ones are as the model
/// has them. The lost server's own pair says anything.
fn each_server(group: &mut Group, random: &mut Random, shape: Shape, servers: usize) {
    let before = clean_servers(random, shape, servers);
    for lost in 0..=servers {
        let mut losses = any_losses(random, shape, servers);
        losses[2 * lost..2 * lost + 2].copy_from_slice(&[random.byte(), random.byte()]);
        let mut stripes = before.clone();
        lose(random, shape, lost, &mut stripes, &losses);
        let case = (shape, servers, lost);
        let got = same_rebuild(group, case, &mut stripes, &mut Lent::of(&losses, random));
        let call = || format!("rebuild_server({case:?}), clean, losses {losses:?}");
        group.same(call, ACCEPTED, got);
        group.same_stripe(call, shape, before.whole(), stripes.whole());
        let mut dirty = Lent::noise((servers + 1) * stripe_length(shape), random);
        beside_one_stripe(group, random, case, &mut dirty, &losses);
    }
}

/// A dirty rebuild; each other server is what the calls on one stripe make of it, and all XOR to zero.
fn beside_one_stripe(
    group: &mut Group,
    random: &mut Random,
    (shape, servers, lost): (Shape, usize, usize),
    stripes: &mut Lent,
    losses: &[u8],
) {
    let mut expected = stripes.part().to_vec();
    same_rebuild(group, (shape, servers, lost), stripes, &mut Lent::of(losses, random));
    let mut sum = vec![0; stripe_length(shape)];
    for server in 0..=servers {
        let place = server_place(shape, server);
        let pair = [losses[2 * server], losses[2 * server + 1]];
        if server != lost {
            mend(shape, pair, &mut expected[place.clone()]);
            let call =
                || format!("rebuild_server({shape:?}, {servers}, {lost}), {server}: {pair:?}");
            group.same_bytes(call, &expected[place.clone()], &stripes.part()[place.clone()]);
        }
        for (byte, other) in sum.iter_mut().zip(&stripes.part()[place]) {
            *byte ^= other;
        }
    }
    let call = || format!("rebuild_server({shape:?}, {servers}, {lost}), the XOR of all");
    group.same_stripe(call, shape, &vec![0; stripe_length(shape)], &sum);
}

/// A server's losses by the library's calls on one stripe.
fn mend(shape: Shape, [first, second]: [u8; 2], stripe: &mut [u8]) {
    let mut one = |disk: u8| {
        let mut column = vec![0; column_length(shape)];
        rebuild_one(shape, disk as usize, stripe, &mut column);
        stripe[disk_place(shape, disk as usize)].copy_from_slice(&column);
    };
    match (first, second) {
        (NONE, NONE) => (),
        (disk, NONE) | (NONE, disk) => one(disk),
        _ => {
            rebuild_two(shape, first as usize, second as usize, stripe);
        }
    }
}

/// Every loss of one disk, in either byte, and every pair, in both orders for small widths, on one of two servers.
fn each_kind(group: &mut Group, random: &mut Random, shape: Shape) {
    let before = clean_servers(random, shape, 2);
    for first in shape.all_disks() {
        for second in shape.all_disks() {
            if shape.width > 7 && second != first && !random.once_in(shape.disks) {
                continue;
            }
            let (lost, mended) = *random.pick(&[(0, 1), (0, 2), (1, 0), (1, 2), (2, 0), (2, 1)]);
            let pair = match (first == second, random.once_in(2)) {
                (true, true) => [first as u8, NONE],
                (true, false) => [NONE, first as u8],
                _ => [first as u8, second as u8],
            };
            let mut losses = [NONE; 6];
            losses[2 * mended..2 * mended + 2].copy_from_slice(&pair);
            let mut stripes = before.clone();
            lose(random, shape, lost, &mut stripes, &losses);
            let mut lent = Lent::of(&losses, random);
            same_rebuild(group, (shape, 2, lost), &mut stripes, &mut lent);
            let call = || format!("rebuild_server({shape:?}, 2, {lost}), losses {losses:?}, clean");
            group.same_stripe(call, shape, before.whole(), stripes.whole());
        }
    }
}

/// The widest array with the largest cells, and the most servers on a smaller one.
fn large(group: &mut Group, random: &mut Random) {
    for (shape, servers) in [(Shape::full(31, 4_096), 2), (Shape::new(7, 5, 4_096), 16)] {
        let before = clean_servers(random, shape, servers);
        let lost = random.below(servers + 1);
        let losses = any_losses(random, shape, servers);
        let mut stripes = before.clone();
        lose(random, shape, lost, &mut stripes, &losses);
        let got = rebuild_server(shape, servers, lost, stripes.part(), &losses);
        let call = || format!("rebuild_server({shape:?}, {servers}, {lost}), losses {losses:?}");
        group.same(call, ACCEPTED, got);
        group.same_stripe(call, shape, before.whole(), stripes.whole());
    }
}

// Stack.

/// The widest array, two disks of each other server lost, on a thread with little stack.
fn little_stack(group: &mut Group, random: &mut Random) {
    let shape = Shape::full(31, 64);
    let before = clean_servers(random, shape, 3);
    let losses = [7, 20, NONE, NONE, 3, NONE, 0, 32];
    let mut stripes = before.clone();
    lose(random, shape, 1, &mut stripes, &losses);
    small_stack::run(|| rebuild_server(shape, 3, 1, stripes.part(), &losses));
    let call = || format!("rebuild_server({shape:?}, 3, 1) on 64 KiB of stack");
    group.same_stripe(call, shape, before.whole(), stripes.whole());
    random.fill(&mut stripes.part()[server_place(shape, 3)]);
    small_stack::run(|| write_server(shape, 3, stripes.part()));
    let call = || format!("write_server({shape:?}, 3) on 64 KiB of stack");
    group.same_stripe(call, shape, before.whole(), stripes.whole());
}
