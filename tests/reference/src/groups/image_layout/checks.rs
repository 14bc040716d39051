//! Layouts of images: whole images byte by byte, the examples of the manual, and random calls.

use super::calls::{block_place, cell_place, film_place, image_bytes, unit_place, Layout};
use super::model;
use crate::harness::model::WIDTHS;
use crate::harness::{Group, Random, Setting};

/// Random layouts.
const ROUNDS: usize = 100_000;

pub fn run(setting: &mut Setting, group: &mut Group) {
    let random = &mut setting.random;
    examples(group);
    for (unit, stripes_of_group) in [(1, 1), (1, 3), (2, 4), (3, 6), (5, 5), (4, 12)] {
        for length in (0..40).map(|count| count * 37) {
            whole_image(group, small(unit, stripes_of_group, length));
        }
    }
    for _ in 0..ROUNDS {
        let layout = any_layout(random);
        same_calls(group, random, layout);
    }
}

fn small(unit: u64, group: u64, length: u64) -> Layout {
    Layout { width: 3, disks: 2, cell_size: 7, unit, group, length }
}

/// Seven stripes in groups of four, cells of 10 bytes, blocks of 104: the numbers of the layout by hand.
fn examples(group: &mut Group) {
    let layout = Layout { cell_size: 10, ..small(2, 4, 361) };
    let mut at =
        |what: &str, expected: u64, got: u64| group.same(|| what.to_string(), expected, got);
    at("bytes of the image", 4 * 4_096, image_bytes(layout).bytes);
    at("cell of row 2, stripe 3", 4_096 + 110, cell_place(layout, 2, 3).at);
    at("cell of row 2, stripe 6", 8_192 + 80, cell_place(layout, 2, 6).at);
    at("block of unit 1", 4_096 + 120 + 104, block_place(layout, 1).at);
    at("block of unit 3", 8_192 + 90 + 104, block_place(layout, 3).at);
    at("piece of row 1, unit 3", 8_192 + 50, unit_place(layout, 1, 3).at);
    at("film byte 360", 8_192 + 20, film_place(layout, 360).at);
}

/// Writes what every call of a layout places, byte by byte: no byte twice, none within a label, and the film in order.
fn whole_image(group: &mut Group, layout: Layout) {
    let image = image_bytes(layout);
    let mut taken = vec![0_u8; image.bytes as usize];
    taken[..4_096].fill(1);
    taken[image.end as usize..].fill(1);
    let mut take = |at: u64, bytes: u64| {
        taken[at as usize..(at + bytes) as usize].iter_mut().for_each(|times| *times += 1);
    };
    for unit in 0..image.units {
        let block = block_place(layout, unit);
        take(block.at, block.bytes);
        for row in 0..layout.width {
            let piece = unit_place(layout, row, unit);
            take(piece.at, piece.bytes);
        }
    }
    let call = |what: &str| format!("{layout:?}, {what}");
    group.same(|| call("bytes taken twice"), 0, taken.iter().filter(|times| **times > 1).count());
    let places =
        (0..image.stripes).flat_map(|stripe| (0..layout.width).map(move |row| (row, stripe)));
    for (row, stripe) in places {
        let unit = unit_place(layout, row, stripe / layout.unit);
        let wanted = unit.at + (stripe - unit.first) * layout.cell_size as u64;
        group.same(|| call("cell in its piece"), wanted, cell_place(layout, row, stripe).at);
    }
    let mut seen: Vec<(usize, u64)> = (0..layout.length)
        .map(|byte| film_place(layout, byte))
        .map(|film| (film.disk, film.at))
        .collect();
    seen.sort();
    seen.dedup();
    group.same(|| call("places of film"), layout.length, seen.len() as u64);
}

/// A number from 1 to `most`, often one of the two.
fn up_to(random: &mut Random, most: usize) -> usize {
    let any = 1 + random.below(most);
    *random.pick(&[1, most, any, any])
}

/// A layout within the limits, mostly; now and then one number is another.
fn any_layout(random: &mut Random) -> Layout {
    let width = *random.pick(&WIDTHS);
    let disks = 1 + up_to(random, width - 1);
    let cell_size = up_to(random, 4_096);
    let unit = up_to(random, (32_768 / cell_size).max(1));
    let groups = 65_536 / unit;
    let few = random.once_in(3);
    let group = unit * up_to(random, if few { groups.min(8) } else { groups });
    let stripe = (width * disks * cell_size) as u64;
    let length = match random.below(5) {
        0 => *random.pick(&[0, 1, 1 << 48, (1 << 48) - 1, (1 << 48) + 1, u64::MAX]),
        1 => random.below(200_000) as u64 * stripe + random.below(3) as u64,
        _ => random.next() >> (16 + random.below(48)),
    };
    let (unit, group) = (unit as u64, group as u64);
    damaged(random, Layout { width, disks, cell_size, unit, group, length })
}

fn damaged(random: &mut Random, mut layout: Layout) -> Layout {
    if !random.once_in(6) {
        return layout;
    }
    let number =
        *random.pick(&[0, 1, 2, 4_097, 32_769, 65_537, 1 << 32, 1 << 63, u64::MAX - 1, u64::MAX]);
    match random.below(6) {
        0 => layout.width = number as usize,
        1 => layout.disks = number as usize,
        2 => layout.cell_size = number as usize,
        3 => layout.unit = *random.pick(&[number, layout.unit + 1]),
        4 => layout.group = *random.pick(&[number, layout.group + 1]),
        _ => layout.length = number,
    }
    layout
}

/// A number around those from 0 to `end`.
fn near(random: &mut Random, end: u64) -> u64 {
    match random.below(8) {
        0 => 0,
        1 => end.saturating_sub(1),
        2 => end,
        3 => *random.pick(&[end + 1, 1 << 32, u64::MAX]),
        _ => random.next() % end.max(1),
    }
}

/// Every call on a layout.
fn same_calls(group: &mut Group, random: &mut Random, layout: Layout) {
    let image = model::image_bytes(layout);
    group.same(|| format!("image_bytes({layout:?})"), image, image_bytes(layout));
    let row = near(random, layout.width as u64 % 64) as usize;
    let stripe = near(random, image.stripes);
    let call = || format!("cell_place({layout:?}, {row}, {stripe})");
    group.same(call, model::cell_place(layout, row, stripe), cell_place(layout, row, stripe));
    let unit = near(random, image.units);
    let call = || format!("block_place({layout:?}, {unit})");
    group.same(call, model::block_place(layout, unit), block_place(layout, unit));
    let call = || format!("unit_place({layout:?}, {row}, {unit})");
    group.same(call, model::unit_place(layout, row, unit), unit_place(layout, row, unit));
    let byte = near(random, layout.length % (1 << 50));
    let call = || format!("film_place({layout:?}, {byte})");
    group.same(call, model::film_place(layout, byte), film_place(layout, byte));
}
