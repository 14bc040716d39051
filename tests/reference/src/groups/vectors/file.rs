//! The files of conformance/vectors/, line by line; FORMAT.md there tells their form.

use std::rc::Rc;

use crate::harness::model::{stripe_length, Cell};
use crate::harness::Shape;

macro_rules! files {
    ($($name:literal),*) => {
        /// The files' names and texts.
        const FILES: &[(&str, &str)] =
            &[$(($name, include_str!(concat!("../../../../../conformance/vectors/", $name)))),*];
    };
}

files!(
    "encode.txt",
    "one.txt",
    "two.txt",
    "cells.txt",
    "update.txt",
    "scrub.txt",
    "lists.txt",
    "plans.txt",
    "refusals.txt",
    "large.txt",
    "jerasure.txt"
);

/// A line with the array and the stripe that stand above it.
pub struct Line {
    pub file: &'static str,
    number: usize,
    pub shape: Shape,
    pub stripe: Rc<Vec<u8>>,
    pub words: Vec<&'static str>,
}

impl Line {
    /// The call and the line, for a report.
    pub fn name(&self, call: &str) -> String {
        format!("{call} with conformance/vectors/{}, line {}", self.file, self.number)
    }

    pub fn count(&self, place: usize) -> usize {
        number(self.words[place])
    }
}

/// The lines of all files, but those that only say of what array or stripe the next ones are.
pub fn lines() -> Vec<Line> {
    FILES.iter().flat_map(|(file, text)| lines_of(file, text)).collect()
}

fn lines_of(file: &'static str, text: &'static str) -> Vec<Line> {
    let mut shape = Shape::new(0, 0, 0);
    let mut stripe = Rc::new(Vec::new());
    let mut lines = Vec::new();
    for (place, line) in text.lines().enumerate().filter(|(_, line)| !line.starts_with('#')) {
        let words: Vec<&str> = line.split(' ').collect();
        match words[..] {
            ["array", p, k] => shape = Shape::new(number(p), number(k), 0),
            ["array", p, k, s] => shape = Shape::new(number(p), number(k), number(s)),
            ["stripe" | "dirty", bytes] => {
                stripe = Rc::new(bytes_of(bytes));
                assert_eq!(stripe.len(), stripe_length(shape), "a stripe's length");
            }
            _ => (),
        }
        lines.push(Line { file, number: place + 1, shape, stripe: stripe.clone(), words });
    }
    lines
}

pub fn number(word: &str) -> usize {
    word.parse().expect("a number")
}

/// The bytes that hexadecimal digits stand for.
pub fn bytes_of(word: &str) -> Vec<u8> {
    let digit = |byte: u8| (byte as char).to_digit(16).expect("a hexadecimal digit") as u8;
    assert_eq!(word.len() % 2, 0, "two digits a byte");
    word.as_bytes().chunks(2).map(|pair| digit(pair[0]) * 16 + digit(pair[1])).collect()
}

/// A cell from `DISK.ROW`.
pub fn cell_of(word: &str) -> Cell {
    let (disk, row) = word.split_once('.').expect("a cell");
    (number(row), number(disk))
}

/// Cells with bytes behind them.
pub fn cells_with_bytes(words: &[&str]) -> Vec<(Cell, Vec<u8>)> {
    words.chunks_exact(2).map(|pair| (cell_of(pair[0]), bytes_of(pair[1]))).collect()
}

/// The text that a word stands for.
pub fn text_of(word: &str) -> Vec<u8> {
    let mut text = Vec::new();
    let mut bytes = word.bytes();
    while let Some(byte) = bytes.next() {
        let escaped = (byte == b'\\').then(|| bytes.next().expect("a byte after a backslash"));
        text.push(match escaped {
            None => byte,
            Some(b'n') => b'\n',
            Some(b'r') => b'\r',
            Some(b'x') => {
                let digits: Vec<u8> = bytes.by_ref().take(2).collect();
                bytes_of(std::str::from_utf8(&digits).expect("two digits"))[0]
            }
            Some(other) => other,
        });
    }
    text
}
