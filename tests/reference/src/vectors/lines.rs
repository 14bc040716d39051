//! Lines of the vectors, and the stripes that they are about.

use crate::harness::model::{encode, stripe_length, Cell};
use crate::harness::{arrays, Random, Shape};

const SEED: u64 = 20_261_117;

/// A file's lines so far.
pub struct Lines {
    text: String,
    name: &'static str,
}

impl Lines {
    pub fn new(name: &'static str) -> Lines {
        Lines { text: "# FORMAT.md tells the form.\n".to_string(), name }
    }

    pub fn add(&mut self, line: String) {
        self.text += &line;
        self.text.push('\n');
    }

    /// Begins an array; its random numbers are the same in every run.
    pub fn array(&mut self, shape: Shape) -> Random {
        let Shape { width: p, disks: k, cell_size: s } = shape;
        self.add(format!("array {p} {k} {s}"));
        Random::new(SEED, &format!("{} {p} {k} {s}", self.name))
    }

    /// Begins an array of which no bytes are moved.
    pub fn plain_array(&mut self, p: usize, k: usize) -> Random {
        self.add(format!("array {p} {k}"));
        Random::new(SEED, &format!("{} {p} {k}", self.name))
    }

    /// A clean stripe of random data.
    pub fn clean(&mut self, shape: Shape, random: &mut Random) -> Vec<u8> {
        let mut stripe = bytes(random, stripe_length(shape));
        encode(shape, &mut stripe);
        self.add(format!("stripe {}", hex(&stripe)));
        stripe
    }

    /// A stripe of random bytes.
    pub fn dirty(&mut self, shape: Shape, random: &mut Random) -> Vec<u8> {
        let stripe = bytes(random, stripe_length(shape));
        self.add(format!("dirty {}", hex(&stripe)));
        stripe
    }

    pub fn finish(self) -> String {
        self.text
    }
}

/// Every array with cells of one byte.
pub fn small() -> Vec<Shape> {
    arrays::every().into_iter().map(|(p, k)| Shape::new(p, k, 1)).collect()
}

/// Those of up to seven rows with longer cells, too.
pub fn small_and_longer() -> Vec<Shape> {
    let longer = |(p, k): (usize, usize)| match p {
        3..=7 => vec![Shape::new(p, k, 1), Shape::new(p, k, 3), Shape::new(p, k, 8)],
        _ => vec![Shape::new(p, k, 1)],
    };
    arrays::every().into_iter().flat_map(longer).collect()
}

pub fn bytes(random: &mut Random, length: usize) -> Vec<u8> {
    (0..length).map(|_| random.byte()).collect()
}

pub fn hex(bytes: &[u8]) -> String {
    bytes.iter().map(|byte| format!("{byte:02x}")).collect()
}

/// A cell as `DISK.ROW`.
pub fn name((row, disk): Cell) -> String {
    format!("{disk}.{row}")
}

/// A cell and bytes of it.
pub fn with_bytes(cell: Cell, bytes: &[u8]) -> String {
    format!("{} {}", name(cell), hex(bytes))
}

/// A text as one word.
pub fn escaped(text: &[u8]) -> String {
    let word = |byte: &u8| match byte {
        b'\n' => "\\n".to_string(),
        b'\r' => "\\r".to_string(),
        b'\\' => "\\\\".to_string(),
        b'!'..=b'~' => (*byte as char).to_string(),
        other => format!("\\x{other:02x}"),
    };
    text.iter().map(word).collect()
}
