//! `decode`: the film back from its images.

use std::ffi::OsStr;
use std::fs::{self, File, Metadata};
use std::io;
use std::os::fd::AsFd;
use std::os::unix::fs::MetadataExt;
use std::sync::Arc;

use cuzhaveli_images::fault::Fault;
use cuzhaveli_images::names::{bytes, count};
use cuzhaveli_images::read::set::Set;
use cuzhaveli_images::read::whole_film::Decoded;
use cuzhaveli_images::write::deliver::{deliver, Target};

use crate::cli::args::Given;
use crate::cli::table::{Command, Kind, Operand, Use};
use crate::cli::values::usage;
use crate::cli::words::{DIR, JSON, OVERWRITE, QUIET};
use crate::print::json::Object;
use crate::print::say;
use crate::print::watcher::Watcher;

pub const COMMAND: Command = Command {
    name: "decode",
    brief: "the film back from its images",
    about: &[
        "Gives the film back, with up to two images lost. A FILM that is there is not overwritten; until it is whole it \
         is FILM.part.",
        "Where film cannot be made right, FILM.part stays, or the drive, with zeros there, and standard error says where; a \
         pipe ends there.",
        "Nothing is told of a film that goes to standard output.",
    ],
    words: &[
        Use::May(&Use::Opt(&QUIET)),
        Use::May(&Use::Opt(&JSON)),
        Use::May(&Use::Opt(&OVERWRITE)),
        DIR,
        Use::Operand(&Operand {
            name: "FILM",
            kind: Kind::File,
            about: "where the film goes; - for standard output",
        }),
    ],
    tells: &[
        ("length", "the bytes of the film"),
        ("read", "the bytes that were read of the images"),
        ("mended", "the units of which something had to be mended"),
    ],
};

/// Whether a name is that of standard output, which then has the film and no results.
fn is_output(name: &OsStr) -> bool {
    let output = io::stdout().as_fd().try_clone_to_owned().map(File::from);
    let id = |data: Metadata| (data.dev(), data.ino());
    let named = || fs::metadata(name).map(id).ok();
    name == "-"
        || output.and_then(|file| file.metadata()).is_ok_and(|data| named() == Some(id(data)))
}

pub fn run(given: &Given) -> Result<(), Fault> {
    let to_output = is_output(&given.operands[1]);
    if given.flag("--json") && to_output {
        return Err(usage(
            "--json: standard output has the film; leave it out, or name a file".into(),
        ));
    }
    let set = Arc::new(Set::open(given.path(0), &[])?);
    say::notes(&set);
    let length = set.label.geometry.length;
    let name = if to_output { OsStr::new("-") } else { &given.operands[1] };
    let target = Target::open(name, &given.overwrite()?, length, &set.sources())?;
    target.says_stopped("decode");
    let decoded = deliver(&set, target, "decode", &mut Watcher::new(given.flag("-q")))?;
    if to_output {
        return Ok(());
    }
    tell(given, length, &decoded)
}

fn tell(given: &Given, length: u64, Decoded { read, mended }: &Decoded) -> Result<(), Fault> {
    let object = Object(vec![
        ("length", length.into()),
        ("read", (*read).into()),
        ("mended", (*mended).into()),
    ]);
    let (film, path, read) = (bytes(length), given.path(1).display(), bytes(*read));
    let mended = match mended {
        0 => String::new(),
        _ => format!(", {} mended", count(*mended, "unit")),
    };
    say::told(given, object, format!("Decoded {film} to {path}: {read} read{mended}"))
}
