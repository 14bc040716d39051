//! `get`: a package of a store, or one file of it.

use cuzhaveli_images::fault::Fault;
use cuzhaveli_images::names::{bytes, count};
use cuzhaveli_images::os::drives::Overwrite;
use cuzhaveli_images::read::whole_film::Decoded;
use cuzhaveli_images::store::catalogue::Package;
use cuzhaveli_images::store::get::{get, get_file};
use cuzhaveli_images::write::deliver::Target;

use crate::cli::args::Given;
use crate::cli::table::{Command, Kind, Operand, Use};
use crate::cli::values::usage;
use crate::cli::words::{FILE, JSON, PACKAGE, QUIET, STORE};
use crate::commands::store::{file_name, opened, package_name};
use crate::print::json::Object;
use crate::print::say;
use crate::print::watcher::Watcher;

pub const COMMAND: Command = Command {
    name: "get",
    brief: "a package of a store, or one file of it",
    about: &[
        "Gives a package to the folder TO, or one file of it to the file TO. What is there is not overwritten; until it is \
         whole it is TO.part, which stays where film cannot be made right.",
        "Nothing is told of a file that goes to standard output.",
    ],
    words: &[
        Use::May(&Use::Opt(&QUIET)),
        Use::May(&Use::Opt(&JSON)),
        STORE,
        PACKAGE,
        Use::May(&FILE),
        Use::Operand(&Operand {
            name: "TO",
            kind: Kind::File,
            about: "where it goes; - for standard output, of one file",
        }),
    ],
    tells: &[
        ("package", "its name"),
        ("files", "the files that were got"),
        ("length", "their bytes"),
        ("read", "the bytes that were read of the images"),
        ("mended", "the units of which something had to be mended"),
    ],
};

pub fn run(given: &Given) -> Result<(), Fault> {
    let name = package_name(given, 1)?;
    let file = (given.operands.len() == 4).then(|| file_name(given, 2)).transpose()?;
    if file.is_none() && given.operands[2] == "-" {
        return Err(usage(
            "a package goes to a folder; for standard output name one file of it".into(),
        ));
    }
    if given.flag("--json") && given.operands.last().is_some_and(|to| to == "-") {
        return Err(usage(
            "--json: standard output has the film; leave it out, or name a file".into(),
        ));
    }
    let store = opened(given.path(0))?;
    let package = store.package(&name)?;
    let (mut watch, to) = (Watcher::new(given.flag("-q")), given.operands.len() - 1);
    let (files, length, decoded) = match file {
        None => {
            let decoded = get(&store, package, given.path(to), &mut watch)?;
            (package.files.len(), package.length(), decoded)
        }
        Some(file) => {
            let file = store.file(package, &file)?;
            let named = Overwrite::of(std::iter::empty())?;
            let target = Target::open(&given.operands[to], &named, file.length, &[])?;
            target.says_stopped("get");
            let decoded = get_file(&store, package, file, target, &mut watch)?;
            (1, file.length, decoded)
        }
    };
    if given.operands[to] == "-" {
        return Ok(());
    }
    tell(given, package, (files as u64, length), &decoded)
}

fn tell(
    given: &Given,
    package: &Package,
    (files, length): (u64, u64),
    Decoded { read, mended }: &Decoded,
) -> Result<(), Fault> {
    let name = package.name.as_str();
    let object = Object(vec![
        ("package", name.into()),
        ("files", files.into()),
        ("length", length.into()),
        ("read", (*read).into()),
        ("mended", (*mended).into()),
    ]);
    let (files, length) = (count(files, "file"), bytes(length));
    let mut text = format!("Got {files} of {name}, {length}: {} read", bytes(*read));
    if *mended > 0 {
        text += &format!(", {} mended", count(*mended, "unit"));
    }
    say::told(given, object, text)
}
