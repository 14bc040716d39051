//! `stripe rebuild-cells --draw`: which cells are missing, and what brings them back.

use std::collections::BTreeSet;
use std::fmt::Write;

use cuzhaveli::{Set as CellSet, Shape};
use cuzhaveli_images::fault::Fault;
use cuzhaveli_images::names::{count, disk_name};

use crate::cli::args::Given;
use crate::cli::help::wrapped;
use crate::commands::stripe::missing::{agree, marks, read, sums, Sum};
use crate::print::cell_sets;
use crate::print::json::{Object, Value};
use crate::print::say;

/// Where the sets of a cell begin.
const INDENT: usize = 10;

pub fn draw(given: &Given, shape: Shape) -> Result<(), Fault> {
    let marks = marks(shape, given.value("--missing").unwrap_or_default())?;
    let sums = sums(shape, &marks);
    let refusal = agree(shape, &marks, &sums)?;
    let cells: BTreeSet<(usize, usize)> = sums.iter().flat_map(|sum| read(shape, sum)).collect();
    match given.flag("--json") {
        true => say::line(object(&sums, cells.len()))?,
        false => say::bytes(picture(shape, &sums, &cells).as_bytes())?,
    }
    refusal.map_or(Ok(()), |refusal| Err(given.refused("--missing", refusal)))
}

fn object(sums: &[Sum], read: usize) -> Object {
    let cell = |sum: &Sum| {
        let sets = sum.sets.iter().flatten().map(|set| Value::Text(cell_sets::name(*set)));
        Object(vec![
            ("disk", sum.disk.into()),
            ("row", sum.row.into()),
            ("sets", Value::List(sets.collect())),
        ])
    };
    Object(vec![
        ("missing", sums.iter().map(cell).collect()),
        ("read", read.into()),
        ("determined", sums.iter().all(|sum| sum.sets.is_some()).into()),
    ])
}

fn picture(shape: Shape, sums: &[Sum], cells: &BTreeSet<(usize, usize)>) -> String {
    let (p, k) = (shape.width(), shape.disks());
    let disks = if k == p { String::new() } else { format!(", {k} data disks") };
    let lacking = sums.iter().filter(|sum| sum.sets.is_none()).count();
    let lacks = match lacking {
        0 => String::new(),
        _ => format!(", {lacking} not determined"),
    };
    let (missing, read) = (count(sums.len() as u64, "missing cell"), cells.len());
    let mut text = format!("width {p}{disks}: {missing}, {read} others read{lacks}\n\n     ");
    for disk in 0..k + 2 {
        let _ = write!(text, "{:>3}", disk_name(shape, disk));
    }
    text.push('\n');
    for row in 0..p {
        let mark = |disk| match sums.iter().find(|sum| (sum.row, sum.disk) == (row, disk)) {
            Some(Sum { sets: Some(_), .. }) => 'x',
            Some(_) => '?',
            None if cells.contains(&(row, disk)) => 'o',
            None => '.',
        };
        let marks: String = (0..k + 2).map(|disk| format!("  {}", mark(disk))).collect();
        let _ = writeln!(text, "{row:>4} {marks}");
    }
    text += "\n  x missing   ? missing, and not determined   o read   . not read\n\n";
    for sum in sums {
        let cell = format!("{}.{}", disk_name(shape, sum.disk), sum.row);
        let lines = wrapped(&sum.sets.as_deref().map_or("not determined".into(), listed), INDENT);
        let _ = write!(text, "  {cell:<width$}{}", lines.trim_start(), width = INDENT - 2);
    }
    text
}

/// `R 0 2 + D 1`
fn listed(sets: &[CellSet]) -> String {
    let mut words = Vec::new();
    for kind in ["R", "D"] {
        let names = sets.iter().map(|set| cell_sets::name(*set));
        let numbers: Vec<String> =
            names.filter_map(|name| name.strip_prefix(kind).map(String::from)).collect();
        if !numbers.is_empty() {
            words.push(format!("{kind}{}", numbers.concat()));
        }
    }
    words.join(" + ")
}
