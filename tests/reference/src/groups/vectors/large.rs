//! Stripes of large cells, whose sums the file has.

use super::file::Line;
use crate::groups::encode::calls::encode_stripe;
use crate::groups::rebuild_one::calls::rebuild_one;
use crate::groups::rebuild_two::calls::rebuild_two;
use crate::harness::answer::ACCEPTED;
use crate::harness::model::{column_length, disk_place, stripe_length};
use crate::harness::{Group, Shape};
use crate::vectors::{large::made, sha256};

/// The stripe of the last seed, before and after the library encoded it.
#[derive(Default)]
pub struct Made {
    dirty: Vec<u8>,
    encoded: Vec<u8>,
}

impl Made {
    pub fn compare(&mut self, group: &mut Group, line: &Line) {
        let shape = line.shape;
        let data = shape.data_length();
        let sum = *line.words.last().expect("a word");
        let got = match line.words[0] {
            "array" => return,
            "seed" => return self.make(group, line),
            "data" => sha256::hex(&self.encoded[..data]),
            "parity" => sha256::hex(&self.encoded[data..]),
            "own" => sha256::hex(&self.one(shape, line.count(1))),
            "two" => sha256::hex(&self.two(shape, line.count(1), line.count(2))),
            _ => "a known word".to_string(),
        };
        group.same(|| line.name(line.words[0]), sum, got.as_str());
    }

    fn make(&mut self, group: &mut Group, line: &Line) {
        self.dirty = made(line.count(1) as u32, stripe_length(line.shape));
        self.encoded = self.dirty.clone();
        let answer = encode_stripe(line.shape, &mut self.encoded);
        group.same(|| line.name("encode_stripe"), ACCEPTED, answer);
    }

    fn one(&self, shape: Shape, disk: usize) -> Vec<u8> {
        let mut column = vec![0; column_length(shape)];
        rebuild_one(shape, disk, &self.dirty, &mut column);
        column
    }

    fn two(&self, shape: Shape, a: usize, b: usize) -> Vec<u8> {
        let mut stripe = self.dirty.clone();
        rebuild_two(shape, a, b, &mut stripe);
        [&stripe[disk_place(shape, a)], &stripe[disk_place(shape, b)]].concat()
    }
}
