//! The label of an image: text in its first and last 4,096 bytes, ended by zeros.

use std::fs::File;
use std::io::{self, Read};

use cuzhaveli::Shape;

use crate::layout::geometry::{Geometry, LABEL_BYTES};
use crate::layout::sums::SetName;
use crate::layout::xxh64::hash;

/// A block where a label stands.
pub type Block = [u8; LABEL_BYTES];

/// What a label says, the disk's number apart.
#[derive(Clone, Copy, Debug, PartialEq, Eq)]
pub struct Label {
    pub set: SetName,
    pub geometry: Geometry,
}

/// What a block tells.
#[derive(Clone, Copy, Debug, PartialEq, Eq)]
pub enum Found {
    /// All zeros.
    Blank,
    /// A disk's image that is being written.
    Part(Label, usize),
    /// A disk's image.
    Image(Label, usize),
    /// An image of the first layout, which had no checksums.
    First,
    Damaged,
}

const IMAGE: &str = "cuzhaveli image 2";
const PART: &str = "cuzhaveli part 2";

/// A random name for a new set.
pub fn new_name() -> io::Result<SetName> {
    let mut name = [0; 16];
    File::open("/dev/urandom")?.read_exact(&mut name)?;
    Ok(name)
}

/// The name of a set as labels have it.
pub fn hex(set: &SetName) -> String {
    set.iter().map(|byte| format!("{byte:02x}")).collect()
}

/// The name that hex digits write.
pub fn name_of(hex: &str) -> Option<SetName> {
    let digit = |place: usize| u8::from_str_radix(hex.get(2 * place..2 * place + 2)?, 16).ok();
    let mut name = [0; 16];
    for (place, byte) in name.iter_mut().enumerate() {
        *byte = digit(place)?;
    }
    (hex.len() == 32).then_some(name)
}

impl Label {
    /// The first and the last block of that disk's image.
    pub fn block(&self, disk: usize) -> Block {
        self.block_of(IMAGE, disk)
    }

    /// The first block of that disk's image while it is being written.
    pub fn mark(&self, disk: usize) -> Block {
        self.block_of(PART, disk)
    }

    fn block_of(&self, kind: &str, disk: usize) -> Block {
        let Geometry { shape, unit, group, stripes, length, .. } = self.geometry;
        let (width, disks, cell) = (shape.width(), shape.disks(), shape.cell_size());
        let lines = format!(
            "{kind}\nset {}\ndisk {disk}\nwidth {width}\ndisks {disks}\ncell {cell}\nunit {unit}\n\
             group {group}\nstripes {stripes}\nlength {length}\n",
            hex(&self.set)
        );
        let text = format!("{lines}sum {:016x}\n", hash(lines.as_bytes(), 0));
        let mut block = [0; LABEL_BYTES];
        block[..text.len()].copy_from_slice(text.as_bytes());
        block
    }
}

impl Found {
    /// Reads a block. What it says is taken only if a label that says so is that block, byte for
    /// byte.
    pub fn of(block: &Block) -> Found {
        if *block == [0; LABEL_BYTES] {
            return Found::Blank;
        }
        match parse(block) {
            Some((label, disk)) if label.block(disk) == *block => Found::Image(label, disk),
            Some((label, disk)) if label.mark(disk) == *block => Found::Part(label, disk),
            _ if block.starts_with(b"cuzhaveli image 1\n") => Found::First,
            _ if block.starts_with(b"cuzhaveli part 1\n") => Found::First,
            _ => Found::Damaged,
        }
    }
}

fn parse(block: &Block) -> Option<(Label, usize)> {
    let end = block.iter().position(|byte| *byte == 0)?;
    let text = std::str::from_utf8(&block[..end]).ok()?;
    let mut lines = text.lines().skip(1);
    let mut value = |name: &str| lines.next()?.strip_prefix(name)?.strip_prefix(' ');
    let set = name_of(value("set")?)?;
    let disk: usize = value("disk")?.parse().ok()?;
    let (width, disks) = (value("width")?.parse().ok()?, value("disks")?.parse().ok()?);
    let shape = Shape::new(width, disks, value("cell")?.parse().ok()?).ok()?;
    let (unit, group) = (value("unit")?.parse().ok()?, value("group")?.parse().ok()?);
    value("stripes")?; // follows from the length: the caller compares the whole block
    let geometry = Geometry::new(shape, unit, group, value("length")?.parse().ok()?)?;
    (disk < geometry.disks()).then_some((Label { set, geometry }, disk))
}

#[cfg(test)]
mod tests {
    use super::*;

    fn label() -> Label {
        let shape = Shape::new(5, 4, 512).unwrap();
        let geometry = Geometry::new(shape, 64, 128, 20_000_003).unwrap();
        Label { set: new_name().unwrap(), geometry }
    }

    #[test]
    fn a_label_is_read_as_it_was_written() {
        let label = label();
        assert_eq!(Found::of(&label.block(3)), Found::Image(label, 3));
        assert_eq!(Found::of(&label.mark(3)), Found::Part(label, 3));
        assert_eq!(Found::of(&[0; LABEL_BYTES]), Found::Blank);
    }

    #[test]
    fn every_changed_byte_is_noticed() {
        let block = label().block(3);
        for place in 0..LABEL_BYTES {
            let mut changed = block;
            changed[place] ^= 2;
            assert!(!matches!(Found::of(&changed), Found::Image(..) | Found::Part(..)), "{place}");
        }
    }

    #[test]
    fn the_first_layout_is_known_by_its_name() {
        let mut block = [0; LABEL_BYTES];
        block[..18].copy_from_slice(b"cuzhaveli image 1\n");
        assert_eq!(Found::of(&block), Found::First);
        block[16] = b'3';
        assert_eq!(Found::of(&block), Found::Damaged);
    }

    #[test]
    fn labels_that_no_set_has_are_damaged() {
        let good = label();
        let with = |change: fn(&mut Geometry)| {
            let mut wrong = good;
            change(&mut wrong.geometry);
            Found::of(&wrong.block(0))
        };
        assert_eq!(with(|one| one.stripes += 1), Found::Damaged);
        assert_eq!(with(|one| one.length = 1 << 49), Found::Damaged);
        assert_eq!(with(|one| one.unit = 65), Found::Damaged);
        assert_eq!(with(|one| one.group = 100), Found::Damaged);
        assert_eq!(Found::of(&good.block(6)), Found::Damaged);
        assert_eq!((name_of("short"), name_of(&"0".repeat(33))), (None, None));
    }
}
