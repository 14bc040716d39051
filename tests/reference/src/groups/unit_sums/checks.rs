//! Checksum blocks and pieces: the values of the manual, random units, refused calls.

use super::calls::{block_fits, piece_fits, seal_unit};
use super::model;
use super::units::Sealed;
use crate::harness::model::{xxh64, UnitOf};
use crate::harness::{Group, Lent, Random, Seen, Setting, Shape};

/// Random units.
const ROUNDS: usize = 12_000;

pub fn run(setting: &mut Setting, group: &mut Group) {
    let random = &mut setting.random;
    known(group);
    let (mut seals, mut fits) = (Seen::new("seal_unit"), Seen::new("piece_fits"));
    let mut guards = Seen::new("block_fits");
    for _ in 0..ROUNDS {
        seal(group, random, &mut seals);
        guard(group, random, &mut guards);
        for _ in 0..3 {
            fit(group, random, &mut fits);
        }
    }
    seals.each_came(group, &[0, 1, 2, 5, 13, 25]);
    guards.each_came(group, &[0, 1, 5, 13, 24]);
    fits.each_came(group, &[0, 1, 2, 3, 5, 13, 15, 24, 25]);
}

/// XXH64 of nothing, of a few bytes, and what the manual page says of set, disk, row and unit.
fn known(group: &mut Group) {
    let mut same = |what: &str, expected: u64, got: u64| {
        group.same(|| what.to_string(), expected, got);
    };
    same("XXH64 of nothing", 0xEF46_DB37_51D8_E999, xxh64(b"", 0));
    same("XXH64 of a", 0xD24E_C4F1_A98C_6E5B, xxh64(b"a", 0));
    same("XXH64 of abc", 0x44BC_2CF5_AD77_0999, xxh64(b"abc", 0));
    let bytes: Vec<u8> = (0..32).collect();
    let shape = Shape::new(3, 2, 32);
    let of = UnitOf { shape, stripes: 1, name: &bytes[..16], unit: 5 };
    same("the manual's sum", 0xe710_9bc9_90f3_c432, u64::from_le_bytes(of.sum(10, &bytes)));
    let (cells, mut block) = (bytes.repeat(12), vec![0; 104]);
    seal_unit(of, &cells, &mut block);
    let sum = block[80..88].try_into().expect("eight bytes");
    same("the manual's sum by the library", 0xe710_9bc9_90f3_c432, u64::from_le_bytes(sum));
}

fn seal(group: &mut Group, random: &mut Random, seen: &mut Seen) {
    let mut one = Sealed::any(random);
    one.spoil(random);
    let mut block = Lent::noise(one.block.len(), random);
    let mut wanted = block.clone();
    let got = seal_unit(one.of(), &one.cells, block.part());
    let expected = model::seal_unit(one.of(), &one.cells, wanted.part());
    let call = || format!("seal_unit({:?}, {}, unit {})", one.shape, one.stripes, one.unit);
    group.same(call, expected, got);
    group.same_bytes(|| call() + ", block", wanted.whole(), block.whole());
    seen.note(got);
}

fn guard(group: &mut Group, random: &mut Random, seen: &mut Seen) {
    let mut one = Sealed::any(random);
    one.damage(random, 0);
    one.spoil(random);
    let got = block_fits(one.of(), &one.block);
    let expected = model::block_fits(one.of(), &one.block);
    group.same(|| format!("block_fits({:?}, unit {})", one.shape, one.unit), expected, got);
    seen.note(got);
}

fn fit(group: &mut Group, random: &mut Random, seen: &mut Seen) {
    let mut one = Sealed::any(random);
    one.damage(random, 4);
    let (shape, piece) = (one.shape, one.of().piece_length());
    let over = random.below(24); // 0: a disk too many, 1: a row
    let disk = random.below(shape.disks + 2 + usize::from(over == 0));
    let row = random.below(shape.width + usize::from(over == 1));
    let start = (disk * shape.width + row) * piece;
    let mut lent = one.cells.get(start..start + piece).unwrap_or(&one.cells[..piece]).to_vec();
    if random.once_in(20) {
        lent.truncate(random.below(piece));
    }
    one.spoil(random);
    let got = piece_fits(one.of(), &one.block, (disk, row), &lent);
    let expected = model::piece_fits(one.of(), &one.block, (disk, row), &lent);
    let call = || format!("piece_fits({:?}, {}, {disk}, {row})", one.shape, one.stripes);
    group.same(call, expected, got);
    seen.note(got);
}
