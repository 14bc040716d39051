//! `put`: files into a package of a store.

use std::path::Path;

use cuzhaveli_images::fault::Fault;
use cuzhaveli_images::names::{bytes, count};
use cuzhaveli_images::os::stop;
use cuzhaveli_images::store::put::{put, PutPlan};
use cuzhaveli_images::store::source::gather;

use crate::cli::args::Given;
use crate::cli::table::{Command, Kind, Operand, Opt, Use};
use crate::cli::words::{JSON, LACKS, PACKAGE, QUIET, STORE};
use crate::commands::store::{acknowledge, locked, opened, package_name};
use crate::print::json::Object;
use crate::print::say;
use crate::print::watcher::Watcher;

pub const COMMAND: Command = Command {
    name: "put",
    brief: "files into a package of a store, if they fit on every disk",
    about: &[
        "Puts files into a package, in the place of one of that name. It is refused before a byte is written if it does \
         not fit on every disk that is there. What it tells stands: a power cut before leaves the old package or the new \
         one, one after it the new one.",
    ],
    words: &[
        Use::May(&Use::Opt(&QUIET)),
        Use::May(&Use::Opt(&JSON)),
        Use::May(&Use::Opt(&Opt { name: "-n", value: None, about: "only say what it would take" })),
        STORE,
        PACKAGE,
        Use::Operands(&Operand {
            name: "FILE",
            kind: Kind::File,
            about: "a file, or a folder of which all that is in it is put",
        }),
    ],
    tells: &[
        ("package", "its name"),
        ("done", "whether it is there now; false with -n"),
        ("files", "its files"),
        ("length", "their bytes"),
        ("stripes", "the stripes of their images"),
        ("bytes", "the bytes that it takes of each disk"),
        ("free", "the bytes that were free on the fullest disk"),
        ("fits", "whether it fits on every disk that is there"),
        LACKS,
    ],
};

pub fn run(given: &Given) -> Result<(), Fault> {
    let (folder, name) = (given.path(0), package_name(given, 1)?);
    let files = gather(given.operands[2..].iter().map(Path::new))?;
    if given.flag("-n") {
        let store = opened(folder)?;
        let plan = PutPlan::of(&store, name, &files)?;
        let fits = plan.fits(&store);
        let (mut object, text) = told(&plan, false);
        object.0.push(("lacks", (&[][..]).into()));
        let room = if fits.is_ok() { "it fits" } else { "it does not fit" };
        say::told(given, object, format!("Would put {text}: {room}"))?;
        return fits;
    }
    let (_lock, store) = locked(folder)?;
    let plan = PutPlan::of(&store, name, &files)?;
    plan.fits(&store)?;
    stop::says("the package is the old or the new one; the same command settles it");
    let changed = put(&store, &plan, &files, &mut Watcher::new(given.flag("-q")))?;
    let (object, text) = told(&plan, true);
    acknowledge(given, &changed, object, format!("Put {text}"))
}

/// What is told of a put, done or not.
fn told(plan: &PutPlan, done: bool) -> (Object, String) {
    let PutPlan { package, need, free } = plan;
    let (name, files, length) = (package.name.as_str(), package.files.len(), package.length());
    let object = Object(vec![
        ("package", name.into()),
        ("done", done.into()),
        ("files", files.into()),
        ("length", length.into()),
        ("stripes", need.stripes.into()),
        ("bytes", need.bytes.into()),
        ("free", free.iter().map(|one| one.room.bytes).min().unwrap_or(0).into()),
        ("fits", free.iter().all(|one| one.fits).into()),
    ]);
    let (files, length, each) = (count(files as u64, "file"), bytes(length), bytes(need.bytes));
    (object, format!("{files} into {name}, {length}, {each} of each disk"))
}
