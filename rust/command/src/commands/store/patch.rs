//! `patch`: some bytes of a file of a store replaced.

use cuzhaveli_images::fault::Fault;
use cuzhaveli_images::names::bytes;
use cuzhaveli_images::os::stop;
use cuzhaveli_images::store::patch::{patch, PatchPlan};
use cuzhaveli_images::store::source::single;

use crate::cli::args::Given;
use crate::cli::table::{Command, Kind, Operand, Opt, Use};
use crate::cli::words::{FILE, JSON, LACKS, PACKAGE, QUIET, STORE};
use crate::commands::store::{acknowledge, file_name, locked, package_name};
use crate::print::json::Object;
use crate::print::say;
use crate::print::watcher::Watcher;

pub const COMMAND: Command = Command {
    name: "patch",
    brief: "replace some bytes of a file of a store",
    about: &[
        "Replaces bytes of a file, from OFFSET on, by those of the file FROM; the file may become longer by it. The file's \
         images are written anew, and there must be room for the old and the new ones.",
    ],
    words: &[
        Use::May(&Use::Opt(&QUIET)),
        Use::May(&Use::Opt(&JSON)),
        Use::Opt(&Opt {
            name: "--at",
            value: Some(("OFFSET", Kind::Number)),
            about: "the first byte that is replaced",
        }),
        STORE,
        PACKAGE,
        FILE,
        Use::Operand(&Operand { name: "FROM", kind: Kind::File, about: "the file with the new bytes" }),
    ],
    tells: &[
        ("package", "its name"),
        ("file", "the name of the file"),
        ("at", "the first byte that was replaced"),
        ("bytes", "the bytes that were"),
        ("length", "the bytes of the file now"),
        LACKS,
    ],
};

pub fn run(given: &Given) -> Result<(), Fault> {
    let start = given.needed("--at")?;
    let (name, file) = (package_name(given, 1)?, file_name(given, 2)?);
    let found = single(given.path(3), file.clone())?;
    let (_lock, store) = locked(given.path(0))?;
    let plan = PatchPlan::of(&store, &name, &file, start, &found)?;
    say::warn(&format!(
        "{} bytes of {} are replaced; its new images take {} bytes of each disk before the old ones go",
        found.length, plan.new.length, plan.need.bytes
    ));
    stop::says("the file is the old or the new one; the same command settles it");
    let changed = patch(&store, &plan, &found, &mut Watcher::new(given.flag("-q")))?;
    let object = Object(vec![
        ("package", name.as_str().into()),
        ("file", file.as_str().into()),
        ("at", start.into()),
        ("bytes", found.length.into()),
        ("length", plan.new.length.into()),
    ]);
    let shown = format!("{}/{}", name.as_str(), file.as_str());
    let text = format!("Patched {shown}: {} from byte {start} on", bytes(found.length));
    acknowledge(given, &changed, object, text)
}
