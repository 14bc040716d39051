//! The parity server in the second implementation: every other server's lost disks are mended, then the stripes of all
//! others are XORed, byte by byte.

use std::ops::Range;

use super::two_lost;
use crate::groups::rebuild_one::model::follow;
use crate::harness::answer::{Answer, ACCEPTED};
use crate::harness::model::{disk_place, our_steps, refuse_shape, stripe_length, Refusal};
use crate::harness::Shape;

/// A byte of the losses that names no disk.
pub const NONE: u8 = 255;

/// Where a server's stripe stands among all.
pub fn server_place(shape: Shape, server: usize) -> Range<usize> {
    server * stripe_length(shape)..(server + 1) * stripe_length(shape)
}

/// The call that writes the last stripe.
pub fn write_server(shape: Shape, servers: usize, stripes: &mut [u8]) -> Answer {
    let answer = begin(shape, servers, servers, stripes.len()).answer();
    if answer == ACCEPTED {
        add_others(shape, servers, servers, stripes);
    }
    answer
}

/// The call that rebuilds a server.
pub fn rebuild_server(
    shape: Shape,
    servers: usize,
    lost: usize,
    stripes: &mut [u8],
    losses: &[u8],
) -> Answer {
    let begun = begin(shape, servers, lost, stripes.len());
    let mut checks = begun.length(losses.len(), |_| 2 * (servers + 1));
    let pairs = || losses.chunks_exact(2).enumerate().filter(|(server, _)| *server != lost);
    for (_, pair) in pairs() {
        checks = refuse_pair(checks, pair[0], pair[1]);
    }
    let answer = checks.answer();
    if answer == ACCEPTED {
        for (server, pair) in pairs() {
            mend(shape, [pair[0], pair[1]], &mut stripes[server_place(shape, server)]);
        }
        add_others(shape, servers, lost, stripes);
    }
    answer
}

/// What both calls test: the shape, the servers, the stripes.
fn begin(shape: Shape, servers: usize, server: usize, length: usize) -> Refusal {
    let checks = refuse_shape(shape).when(18, |_| !(2..=16).contains(&servers) || server > servers);
    checks.length(length, |shape| (servers + 1) * stripe_length(shape))
}

fn refuse_pair(checks: Refusal, first: u8, second: u8) -> Refusal {
    let over = |disk: u8| move |shape: Shape| disk != NONE && disk as usize > shape.disks + 1;
    checks.when(3, over(first)).when(3, over(second)).when(4, |_| first != NONE && first == second)
}

/// One lost disk by our plan for it, two by the rule for two.
fn mend(shape: Shape, losses: [u8; 2], stripe: &mut [u8]) {
    let disks: Vec<usize> =
        losses.into_iter().filter(|disk| *disk != NONE).map(usize::from).collect();
    match disks[..] {
        [] => (),
        [disk] => {
            let column = follow(shape, disk, stripe, &our_steps(shape.width, shape.disks, disk));
            stripe[disk_place(shape, disk)].copy_from_slice(&column);
        }
        [first, second] => two_lost::solve(shape, [first, second], stripe),
        _ => unreachable!("two bytes"),
    }
}

/// Gives a server the XOR of the others.
fn add_others(shape: Shape, servers: usize, server: usize, stripes: &mut [u8]) {
    let length = stripe_length(shape);
    for byte in 0..length {
        let others = (0..=servers).filter(|other| *other != server);
        stripes[server * length + byte] =
            others.fold(0, |sum, other| sum ^ stripes[other * length + byte]);
    }
}
