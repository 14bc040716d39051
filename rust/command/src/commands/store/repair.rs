//! `repair` of a store: every file, and catalogues that differ.

use cuzhaveli_images::fault::Fault;
use cuzhaveli_images::names::{bytes, disk_names};
use cuzhaveli_images::os::stop;
use cuzhaveli_images::store::mend_disk::mend_disk_files;
use cuzhaveli_images::store::opened::Store;
use cuzhaveli_images::store::repair::{repair, StoreRepaired};

use crate::cli::args::Given;
use crate::commands::set::repair::rewritten;
use crate::commands::store::{cannot_be_written, gaps, locked};
use crate::print::json::Object;
use crate::print::say;
use crate::print::watcher::Watcher;

pub fn run(given: &Given) -> Result<(), Fault> {
    given.only_for("a set", &["--overwrite"])?;
    let pace = given.pace()?; // refused before anything is locked
    let (_lock, store) = locked(given.path(0))?;
    let (store, told) = mend_disk_files(store)?;
    say::warn_all(&told);
    stop::says("what is repaired stays; the same command goes on");
    let repaired = repair(&store, &pace, &mut Watcher::new(given.flag("-q")))?;
    say::warn_all(&repaired.warnings);
    tell(given, &repaired)?;
    what_is_left(&store, repaired)
}

fn tell(given: &Given, repaired: &StoreRepaired) -> Result<(), Fault> {
    let StoreRepaired { pieces, blocks, labels, read, catalogues, lost, .. } = repaired;
    let object = Object(vec![
        ("pieces", (*pieces).into()),
        ("blocks", (*blocks).into()),
        ("labels", (*labels).into()),
        ("read", (*read).into()),
        ("lost", (&**lost).into()),
        ("beyond", gaps(&repaired.gaps)),
        ("gaps", repaired.gaps.stripes().into()),
        ("catalogues", (*catalogues).into()),
    ]);
    let done = rewritten(&[
        (*pieces, "piece"),
        (*blocks, "checksum block"),
        (*labels, "label"),
        (*catalogues as u64, "catalogue"),
    ]);
    say::told(given, object, format!("{done}; {} read", bytes(*read)))
}

/// Ends with what is still to be done.
fn what_is_left(store: &Store, repaired: StoreRepaired) -> Result<(), Fault> {
    let shown = &store.folder;
    let folder = shown.display();
    if !repaired.gaps.is_empty() {
        return Err(Fault::Beyond(format!(
            "{folder}: film that cannot be made right; put back disks that are somewhere else, or read what is left: \
             cuzhaveli get {folder} PACKAGE TO, or through cuzhaveli mount"
        )));
    }
    cannot_be_written(shown, &repaired.failed)?;
    let lost = repaired.lost;
    if lost.is_empty() {
        return Ok(());
    }
    let (disks, verb) =
        (disk_names(store.numbers().shape, &lost), if lost.len() == 1 { "lacks" } else { "lack" });
    Err(Fault::No(format!("{disks} {verb} something; cuzhaveli check {folder} tells what")))
}
