//! `space`: does a package fit?

use std::fs;
use std::path::Path;

use cuzhaveli::{Shape, Space};
use cuzhaveli_images::fault::Fault;
use cuzhaveli_images::layout::geometry::Geometry;
use cuzhaveli_images::names::{bytes, count};

use crate::cli::args::Given;
use crate::cli::geometry::geometry;
use crate::cli::table::{Command, Kind, Operand, Opt, Use};
use crate::cli::values::usage;
use crate::cli::words::{BYTES, CELL, DISKS, GROUP, JSON, UNIT, WIDTH};
use crate::print::json::Object;
use crate::print::say;

pub const COMMAND: Command = Command {
    name: "space",
    brief: "does a package of files fit?",
    about: &[
        "The stripes that a package of N bytes, or of the FILEs, takes, and the bytes of each disk; says whether these are \
         free.",
    ],
    words: &[
        Use::Opt(&WIDTH),
        Use::May(&Use::Opt(&DISKS)),
        Use::May(&Use::Opt(&CELL)),
        Use::May(&Use::Opt(&Opt {
            name: "--images",
            value: None,
            about: "count the images that encode would write, a set a file, with labels, checksums and what is \
                    filled up; -u and -g do so too",
        })),
        Use::May(&Use::Opt(&UNIT)),
        Use::May(&Use::Opt(&GROUP)),
        Use::May(&Use::Opt(&JSON)),
        Use::Opt(&Opt {
            name: "--free",
            value: Some(("BYTES", Kind::Number)),
            about: "the bytes that each disk has free",
        }),
        Use::One(&[
            Use::Opt(&BYTES),
            Use::Operands(&Operand {
                name: "FILE",
                kind: Kind::File,
                about: "a file of the package",
            }),
        ]),
    ],
    tells: &[
        ("stripes", "the stripes of the package"),
        ("bytes", "the bytes of each disk"),
        ("fits", "whether these are free"),
    ],
};

pub fn run(given: &Given) -> Result<(), Fault> {
    let (shape, free) = (given.shape()?, given.needed("--free")?);
    let images = ["--images", "-u", "-g"].iter().any(|name| given.flag(name));
    let lengths = match given.number("--bytes")? {
        Some(bytes) if given.operands.is_empty() => vec![bytes],
        None if !given.operands.is_empty() => file_lengths(given)?,
        _ => return Err(usage("give --bytes or files, one of the two".into())),
    };
    let space = shape.space(&lengths, free);
    let mut space = space.map_err(|refusal| given.refused("--bytes", refusal))?;
    if images {
        space.bytes_per_disk = image_bytes(given, shape, &lengths)?;
        space.fits = space.bytes_per_disk <= free;
    }
    let Space { stripes, bytes_per_disk, fits } = space;
    let object = Object(vec![
        ("stripes", stripes.into()),
        ("bytes", bytes_per_disk.into()),
        ("fits", fits.into()),
    ]);
    let answer = match fits {
        true => say::good("it fits"),
        false => say::bad(&format!("{} too many", bytes(bytes_per_disk - free))),
    };
    let (stripes, each) = (count(stripes, "stripe"), bytes(bytes_per_disk));
    say::told(given, object, format!("{stripes}, {each} of each disk: {answer}"))?;
    if fits {
        Ok(())
    } else {
        Err(Fault::No(String::new()))
    }
}

/// The bytes of a disk's images, labels, checksums and what is filled up counted.
fn image_bytes(given: &Given, shape: Shape, lengths: &[u64]) -> Result<u64, Fault> {
    let bytes = |length: &u64| geometry(given, shape, Some(*length)).map(Geometry::image_bytes);
    lengths.iter().map(bytes).sum()
}

fn file_lengths(given: &Given) -> Result<Vec<u64>, Fault> {
    let length = |name| {
        let path = Path::new(name);
        match fs::metadata(path) {
            Ok(data) if data.is_file() => Ok(data.len()),
            Ok(_) => Err(Fault::Failed(format!(
                "{} is no file; give the files of a folder one by one",
                path.display()
            ))),
            Err(error) => Err(Fault::path(path, error)),
        }
    };
    given.operands.iter().map(length).collect()
}
