//! Cells of a stripe that are missing, and the sets that bring each back.

use std::collections::BTreeSet;
use std::ffi::OsStr;
use std::fs::File;
use std::io::Read;
use std::path::Path;

use cuzhaveli::{Refusal, Set as CellSet, Shape};
use cuzhaveli_images::fault::Fault;

use crate::cli::values::usage;
use crate::print::cell_sets;

/// More than the names of all cells have.
const MOST_TEXT: u64 = 64 << 10;

/// The marks of missing cells, as the library takes them, from a list or the text of a file.
pub fn marks(shape: Shape, value: &OsStr) -> Result<Vec<u8>, Fault> {
    let text = text(value)?;
    let mut marks = vec![0; shape.width() * (shape.disks() + 2)];
    let mut words = text.split([',', ' ', '\t', '\r', '\n']).filter(|word| !word.is_empty());
    for word in words.by_ref() {
        let (disk, rows) = cells(shape, word).ok_or_else(|| no_cell(shape, value, word))?;
        let first = disk * shape.width();
        marks[first + rows.start..first + rows.end].fill(1);
    }
    if !marks.contains(&1) {
        let value = value.display();
        return Err(usage(format!("--missing {value}: no cell; name at least one, such as 0.2")));
    }
    Ok(marks)
}

/// A list has numbers, P, Q, points and commas alone; all else is the name of a file.
fn text(value: &OsStr) -> Result<String, Fault> {
    let listed = |text: &&str| text.bytes().all(|byte| b"0123456789PQpq.,".contains(&byte));
    if let Some(list) = value.to_str().filter(listed) {
        return Ok(list.into());
    }
    let (mut text, path) = (Vec::new(), Path::new(value));
    let read = File::open(path).and_then(|file| file.take(MOST_TEXT + 1).read_to_end(&mut text));
    read.map_err(|error| Fault::path(path, error))?;
    if text.len() as u64 > MOST_TEXT {
        let path = path.display();
        return Err(usage(format!(
            "--missing {path}: more than {MOST_TEXT} bytes; no list of cells"
        )));
    }
    Ok(String::from_utf8_lossy(&text).into_owned())
}

/// A disk and its rows: `DISK.ROW`, or `DISK` for all of them.
fn cells(shape: Shape, word: &str) -> Option<(usize, std::ops::Range<usize>)> {
    let number = |text: &str| match text.bytes().all(|byte| byte.is_ascii_digit()) {
        true => text.parse::<usize>().ok(),
        false => None,
    };
    let (disk, row) = match word.split_once('.') {
        Some((disk, row)) => (disk, Some(number(row).filter(|row| *row < shape.width())?)),
        None => (word, None),
    };
    let disk = match disk {
        "P" | "p" => shape.disks(),
        "Q" | "q" => shape.disks() + 1,
        _ => number(disk).filter(|disk| *disk < shape.disks() + 2)?,
    };
    Some((disk, row.map_or(0..shape.width(), |row| row..row + 1)))
}

fn no_cell(shape: Shape, value: &OsStr, word: &str) -> Fault {
    let (value, rows, disks) = (value.display(), shape.width() - 1, shape.disks() + 1);
    usage(format!(
        "--missing {value}: {word} is no cell; give DISK.ROW, or DISK for all its rows, with \
         disks 0 to {disks}, P or Q, and rows 0 to {rows}"
    ))
}

/// A missing cell, and the sets whose XOR gives it; none if the other cells do not determine it.
pub struct Sum {
    pub row: usize,
    pub disk: usize,
    pub sets: Option<Vec<CellSet>>,
}

/// A sum of sets as it is reckoned with.
#[derive(Clone)]
struct Line {
    /// A bit for each set.
    sets: u64,
    /// The missing cells in it.
    missing: Vec<bool>,
}

impl Line {
    fn add(&mut self, other: &Line) {
        self.sets ^= other.sets;
        self.missing.iter_mut().zip(&other.missing).for_each(|(cell, more)| *cell ^= more);
    }

    /// Whether one missing cell is in it.
    fn is_of_one(&self) -> bool {
        self.missing.iter().filter(|cell| **cell).count() == 1
    }
}

/// The sum for each missing cell, in the order of a stripe.
pub fn sums(shape: Shape, marks: &[u8]) -> Vec<Sum> {
    let marked = cell_sets::cells(shape).zip(marks).filter(|(_, mark)| **mark != 0);
    let cells: Vec<(usize, usize)> = marked.map(|(cell, _)| cell).collect();
    let line = |(number, set): (usize, CellSet)| {
        let missing = cells.iter().map(|(row, disk)| cell_sets::holds(shape, set, *row, *disk));
        Line { sets: 1_u64 << number, missing: missing.collect() }
    };
    let mut lines: Vec<Line> = cell_sets::all(shape).enumerate().map(line).collect();
    let places = reduce(&mut lines, cells.len());
    let named = |line: &Line| -> Vec<CellSet> {
        let numbered = cell_sets::all(shape).enumerate();
        numbered.filter(|(bit, _)| line.sets >> bit & 1 == 1).map(|(_, set)| set).collect()
    };
    let sum = |(&(row, disk), place): (&(usize, usize), &Option<usize>)| {
        let line = place.map(|place| &lines[place]).filter(|line| line.is_of_one());
        Sum { row, disk, sets: line.map(named) }
    };
    cells.iter().zip(&places).map(sum).collect()
}

/// Exchanges and adds sums by the library's rule (docs/SCOPE.md), until each missing cell that can
/// be is in one sum alone; which sum that is.
fn reduce(lines: &mut [Line], cells: usize) -> Vec<Option<usize>> {
    let (mut places, mut done) = (vec![None; cells], 0);
    for (cell, place) in places.iter_mut().enumerate() {
        let Some(found) = (done..lines.len()).find(|line| lines[*line].missing[cell]) else {
            continue;
        };
        lines.swap(found, done);
        let own = lines[done].clone();
        let others = lines.iter_mut().enumerate().filter(|(other, _)| *other != done);
        others.filter(|(_, line)| line.missing[cell]).for_each(|(_, line)| line.add(&own));
        *place = Some(done);
        done += 1;
    }
    places
}

/// The cells that a sum of sets reads: those that an odd number of them holds, but the missing one.
pub fn read(shape: Shape, sum: &Sum) -> BTreeSet<(usize, usize)> {
    let mut cells = BTreeSet::new();
    for cell in sum.sets.iter().flatten().flat_map(|set| cell_sets::cells_of(shape, *set)) {
        if !cells.remove(&cell) {
            cells.insert(cell);
        }
    }
    cells.remove(&(sum.row, sum.disk));
    cells
}

/// Holds the sums to the library: of cells that no stripe has, it must make what they make, or
/// refuse where they lack one. Its refusal, if it is that.
pub fn agree(shape: Shape, marks: &[u8], sums: &[Sum]) -> Result<Option<Refusal>, Fault> {
    const CELL: usize = 8; // so that other sums agree once in 2^64
    let defect = || Fault::Failed("a defect: sums and library differ; please report it".into());
    let shape = Shape::new(shape.width(), shape.disks(), CELL)?;
    let mut word = 1_u64;
    let mut noise = || {
        word = word.wrapping_mul(6_364_136_223_846_793_005).wrapping_add(1_442_695_040_888_963_407);
        (word ^ word >> 29).to_le_bytes()
    };
    let before: Vec<u8> = (0..shape.stripe_len() / CELL).flat_map(|_| noise()).collect();
    let mut after = before.clone();
    let refusal = shape.rebuild_cells(marks, &mut after).err();
    if refusal.is_some() != sums.iter().any(|sum| sum.sets.is_none()) {
        return Err(defect());
    }
    let cell = |stripe: &[u8], row, disk| {
        let bytes = stripe[shape.cell_range(row, disk)].iter();
        bytes.fold(0, |word, byte| word << 8 | u64::from(*byte))
    };
    let makes = |sum: &Sum| {
        read(shape, sum).into_iter().fold(0, |all, (row, disk)| all ^ cell(&before, row, disk))
    };
    match refusal.is_some() || sums.iter().all(|sum| makes(sum) == cell(&after, sum.row, sum.disk))
    {
        true => Ok(refusal),
        false => Err(defect()),
    }
}

#[cfg(test)]
mod tests {
    use super::*;

    fn marked(shape: Shape, list: &str) -> Vec<u8> {
        marks(shape, list.as_ref()).unwrap()
    }

    #[test]
    fn cells_are_named_by_disk_and_row() {
        let shape = Shape::new(3, 2, 1).unwrap();
        assert_eq!(marked(shape, "0.1,P"), [0, 1, 0, 0, 0, 0, 1, 1, 1, 0, 0, 0]);
        assert_eq!(marked(shape, "Q.2,q.2,3.0,"), [0, 0, 0, 0, 0, 0, 0, 0, 0, 1, 0, 1]);
        for list in ["", ",", "4", "0.3", "0.", ".1", "0.1.1", "P.P", "99999999999999999999"] {
            assert!(marks(shape, list.as_ref()).is_err(), "{list}");
        }
    }

    /// Cells of one, two and three disks: what the library makes of noise.
    #[test]
    fn the_sums_are_the_librarys() {
        let mut refused = 0;
        for p in [3, 5, 7, 13, 31] {
            for k in [2, (p + 3) / 2, p] {
                let shape = Shape::new(p, k, 1).unwrap();
                for list in
                    ["0", "P,Q", "0,1", "0.0,1.1,P.0", "0,1.1,Q.0", "0.0,P.0,Q.0", "0,1,P.2"]
                {
                    let marks = marked(shape, list);
                    let sums = sums(shape, &marks);
                    assert_eq!(sums.len(), marks.iter().filter(|mark| **mark == 1).count());
                    refused += usize::from(agree(shape, &marks, &sums).unwrap().is_some());
                }
            }
        }
        assert!((2 * 15..=3 * 15).contains(&refused), "{refused}");
    }
}
