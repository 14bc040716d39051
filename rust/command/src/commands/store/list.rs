//! `list`: the packages of a store, or the files of one.

use cuzhaveli_images::fault::Fault;
use cuzhaveli_images::layout::label::hex;
use cuzhaveli_images::names::{bytes, count};
use cuzhaveli_images::store::catalogue::{Entry, Package};

use crate::cli::args::Given;
use crate::cli::table::{Command, Use};
use crate::cli::words::{JSON, PACKAGE, STORE};
use crate::commands::store::{opened, package_name};
use crate::print::json::Object;
use crate::print::say;

pub const COMMAND: Command = Command {
    name: "list",
    brief: "the packages of a store, or the files of one",
    about: &[
        "Names are told as the catalogue has them: bytes that are no letters, digits or common signs as % and two digits.",
    ],
    words: &[Use::May(&Use::Opt(&JSON)), STORE, Use::May(&PACKAGE)],
    tells: &[
        (
            "packages",
            "the packages, or the one that is named: name, files, the number of them, and length \
             in bytes",
        ),
        (
            "files",
            "the files of the package that is named: name, length, and set, the name of its \
             images, empty if it has none",
        ),
    ],
};

pub fn run(given: &Given) -> Result<(), Fault> {
    let name = (given.operands.len() == 2).then(|| package_name(given, 1)).transpose()?;
    let store = opened(given.path(0))?;
    let packages: Vec<&Package> = match &name {
        Some(name) => vec![store.package(name)?],
        None => store.catalogue.packages.iter().collect(),
    };
    let files: Vec<&Entry> = match name {
        Some(_) => packages.iter().flat_map(|package| &package.files).collect(),
        None => Vec::new(),
    };
    if given.flag("--json") {
        return say::line(object(&packages, &files));
    }
    if name.is_some() {
        let line = |file: &&Entry| {
            say::line(format!("{:>10}  {}", bytes(file.length), file.name.as_str()))
        };
        return files.iter().try_for_each(line);
    }
    packages.iter().try_for_each(|package| {
        let (name, files) = (package.name.as_str(), count(package.files.len() as u64, "file"));
        say::line(format!("{:>10}  {name}, {files}", bytes(package.length())))
    })
}

fn object(packages: &[&Package], files: &[&Entry]) -> Object {
    let package = |one: &&Package| {
        Object(vec![
            ("name", one.name.as_str().into()),
            ("files", one.files.len().into()),
            ("length", one.length().into()),
        ])
    };
    let file = |one: &&Entry| {
        let set = one.set.map_or_else(String::new, |set| hex(&set));
        Object(vec![
            ("name", one.name.as_str().into()),
            ("length", one.length.into()),
            ("set", (&*set).into()),
        ])
    };
    Object(vec![
        ("packages", packages.iter().map(package).collect()),
        ("files", files.iter().map(file).collect()),
    ])
}
