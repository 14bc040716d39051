//! Refused calls on a parity server: numbers, lengths, and losses of one server after another; nothing is written.

use super::checks::{any_losses, same_rebuild, same_write};
use super::model::{server_place, NONE};
use crate::harness::answer::Answer;
use crate::harness::model::stripe_length;
use crate::harness::{arrays, numbers, Group, Lent, Random, Shape};

/// Servers, and numbers of a server, around the limits and far beyond.
const SERVERS: [usize; 12] =
    [0, 1, 2, 3, 15, 16, 17, 18, 1 << 8, (1 << 32) + 2, usize::MAX - 1, usize::MAX];

pub fn run(group: &mut Group, random: &mut Random) {
    for (p, k) in arrays::some() {
        each_server_last(group, random, Shape::new(p, k, 1));
        refused_order(group, random, Shape::new(p, k, 1));
    }
    refused_servers(group, random, Shape::new(5, 3, 2));
    refused_lengths(group, random, Shape::new(5, 3, 2));
    refused_numbers(group, random);
}

/// A loss that is refused, at each server in turn, with accepted ones on all others, so that those before it would have
/// been mended first: the number is that of the pair, and no byte changes.
fn each_server_last(group: &mut Group, random: &mut Random, shape: Shape) {
    let over = shape.disks as u8 + 2;
    let servers = 4;
    let pairs =
        [([over, NONE], 3), ([NONE, over], 3), ([over, over], 3), ([0, 254], 3), ([1, 1], 4)];
    for server in 0..=servers {
        for (pair, number) in pairs {
            let lost = (server + 1 + random.below(servers)) % (servers + 1);
            let mut losses = any_losses(random, shape, servers);
            losses[2 * server..2 * server + 2].copy_from_slice(&pair);
            let mut stripes = Lent::noise((servers + 1) * stripe_length(shape), random);
            let before = stripes.clone();
            let mut lent = Lent::of(&losses, random);
            let got = same_rebuild(group, (shape, servers, lost), &mut stripes, &mut lent);
            let call = || format!("rebuild_server({shape:?}, {servers}, {lost}), {losses:?}");
            group.same(call, Answer::of(number), got);
            group.same_stripe(
                || format!("{}, as it was", call()),
                shape,
                before.whole(),
                stripes.whole(),
            );
            not_read(group, random, (shape, servers, server), stripes, losses);
        }
    }
}

/// The same losses with that server the lost one: its pair is not read.
fn not_read(
    group: &mut Group,
    random: &mut Random,
    case: (Shape, usize, usize),
    mut stripes: Lent,
    losses: Vec<u8>,
) {
    let (shape, servers, lost) = case;
    let got = same_rebuild(group, case, &mut stripes, &mut Lent::of(&losses, random));
    let call = || format!("rebuild_server({shape:?}, {servers}, {lost}), {losses:?}, not read");
    group.same(call, Answer::of(0), got);
}

/// Of two servers with refused pairs the first decides.
fn refused_order(group: &mut Group, random: &mut Random, shape: Shape) {
    let over = shape.disks as u8 + 2;
    for (first, second, number) in [([2, 2], [over, NONE], 4), ([over, over], [2, 2], 3)] {
        let losses = [[NONE, NONE], first, [NONE, NONE], second].concat();
        let mut stripes = Lent::noise(4 * stripe_length(shape), random);
        let mut lent = Lent::of(&losses, random);
        let got = same_rebuild(group, (shape, 3, 0), &mut stripes, &mut lent);
        let call = || format!("rebuild_server({shape:?}, 3, 0), {losses:?}");
        group.same(call, Answer::of(number), got);
    }
}

/// Every number of servers with every lost one, on slices that would fit them, a few servers, or once cut.
fn refused_servers(group: &mut Group, random: &mut Random, shape: Shape) {
    for servers in SERVERS {
        let fitting = (servers % (1 << 8)).min(20) + 1;
        for held in [fitting, 1, 3] {
            let mut stripes = Lent::noise(server_place(shape, held - 1).end, random);
            same_write(group, shape, servers, &mut stripes);
            for lost in SERVERS {
                let mut losses = Lent::of(&vec![NONE; 2 * held], random);
                same_rebuild(group, (shape, servers, lost), &mut stripes, &mut losses);
            }
        }
    }
}

/// Lengths beside the right ones, of m stripes too, with losses of m pairs too.
fn refused_lengths(group: &mut Group, random: &mut Random, shape: Shape) {
    let stripe = stripe_length(shape);
    for servers in [2, 16] {
        let right = (servers + 1) * stripe;
        for length in [0, 1, stripe, right - stripe, right - 1, right, right + 1, right + stripe] {
            let mut stripes = Lent::noise(length, random);
            same_write(group, shape, servers, &mut stripes);
            for pairs in [2 * (servers + 1), 2 * servers, 2 * servers + 1, 0, 2 * (servers + 2)] {
                let mut losses = Lent::of(&vec![NONE; pairs], random);
                same_rebuild(group, (shape, servers, 1), &mut stripes, &mut losses);
            }
        }
    }
}

/// Widths, data disks and sizes, each good or bad, with servers and lengths that are so too.
fn refused_numbers(group: &mut Group, random: &mut Random) {
    for shape in numbers::any_shapes() {
        let small = numbers::cut_shapes(shape)[0];
        for (servers, lost) in [(2, 0), (2, 3), (17, 17), (0, 0), (usize::MAX, 1)] {
            let mut stripes = Lent::noise(3 * stripe_length(small), random);
            same_write(group, shape, servers, &mut stripes);
            let mut losses = Lent::of(&[0, 0, 3, 3, 200, 200], random);
            same_rebuild(group, (shape, servers, lost), &mut stripes, &mut losses);
        }
    }
}
