//! `remove`: a package out of a store.

use cuzhaveli_images::fault::Fault;
use cuzhaveli_images::names::{bytes, count};
use cuzhaveli_images::store::remove::{remove, Removed};

use crate::cli::args::Given;
use crate::cli::table::{Command, Use};
use crate::cli::words::{JSON, LACKS, PACKAGE, STORE};
use crate::commands::store::{acknowledge, locked, package_name};
use crate::print::json::Object;

pub const COMMAND: Command = Command {
    name: "remove",
    brief: "take a package out of a store",
    about: &["Its bytes are free at once on every disk that is there."],
    words: &[Use::May(&Use::Opt(&JSON)), STORE, PACKAGE],
    tells: &[
        ("package", "its name"),
        ("files", "the files that it had"),
        ("length", "their bytes"),
        LACKS,
    ],
};

pub fn run(given: &Given) -> Result<(), Fault> {
    let name = package_name(given, 1)?;
    let (_lock, store) = locked(given.path(0))?;
    let Removed { files, length, changed } = remove(&store, &name)?;
    let object = Object(vec![
        ("package", name.as_str().into()),
        ("files", files.into()),
        ("length", length.into()),
    ]);
    let (files, length) = (count(files as u64, "file"), bytes(length));
    acknowledge(given, &changed, object, format!("Removed {}: {files}, {length}", name.as_str()))
}
