//! Random units, encoded and sealed, and arguments that are refused.

use super::model::seal_unit;
use crate::harness::model::{encode, UnitOf, WIDTHS};
use crate::harness::{Random, Shape};

/// A unit with its name, cells and checksum block.
#[derive(Clone)]
pub struct Sealed {
    pub shape: Shape,
    pub stripes: usize,
    pub name: Vec<u8>,
    pub unit: u64,
    pub cells: Vec<u8>,
    pub block: Vec<u8>,
}

impl Sealed {
    pub fn of(&self) -> UnitOf<'_> {
        UnitOf { shape: self.shape, stripes: self.stripes, name: &self.name, unit: self.unit }
    }

    /// A unit of random film, mostly encoded, under its own block.
    pub fn any(random: &mut Random) -> Sealed {
        let widths = if random.once_in(20) { 10 } else { 4 };
        let width = *random.pick(&WIDTHS[..widths]);
        let disks = 2 + random.below(width - 1);
        let small = !random.once_in(30);
        let cell_size = 1 + random.below(if small { 40 } else { 4_096 });
        let stripes = 1 + random.below((32_768 / cell_size).min(9));
        let shape = Shape::new(width, disks, cell_size);
        let mut cells = vec![0; width * (disks + 2) * stripes * cell_size];
        random.fill(&mut cells);
        if !random.once_in(8) {
            encode(Shape::new(width, disks, stripes * cell_size), &mut cells);
        }
        let mut name = vec![0; 16];
        random.fill(&mut name);
        let unit = random.next() >> random.below(64);
        let mut one = Sealed { shape, stripes, name, unit, cells, block: Vec::new() };
        one.block = vec![0; 8 * one.of().places() + 8];
        let mut block = one.block.clone();
        seal_unit(one.of(), &one.cells, &mut block);
        one.block = block;
        one
    }

    /// Some bytes changed, of up to `most` pieces; now and then one of the block.
    pub fn damage(&mut self, random: &mut Random, most: usize) {
        for _ in 0..random.below(most + 1) {
            let place = random.below(self.cells.len());
            self.cells[place] ^= random.byte().max(1);
        }
        if random.once_in(12) {
            let place = random.below(self.block.len());
            self.block[place] ^= random.byte().max(1);
        }
    }

    /// Now and then a number or a length that is refused.
    pub fn spoil(&mut self, random: &mut Random) {
        let number = *random.pick(&[0, 1, 33, 4_097, 32_769, 1 << 32, 1 << 63, usize::MAX]);
        match random.below(40) {
            0 => self.shape.width = number,
            1 => self.shape.disks = number,
            2 => self.shape.cell_size = number,
            3 | 4 => self.stripes = *random.pick(&[number, self.stripes + 1]),
            5 => self.name.truncate(random.below(16)),
            6 => self.name.push(0),
            7 => self.block.truncate(random.below(8)),
            8 => self.block.push(0),
            9 => self.cells.truncate(random.below(8)),
            10 => self.cells.push(0),
            11 => self.unit ^= 1 << random.below(64),
            12 => self.name.iter_mut().for_each(|byte| *byte ^= 1),
            _ => {}
        }
    }
}
