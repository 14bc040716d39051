//! `rebuild` of a store: every image that a disk lacks, then the catalogue on all.

use std::path::Path;

use cuzhaveli_images::fault::Fault;
use cuzhaveli_images::names::{bytes, count};
use cuzhaveli_images::os::folder::lock;
use cuzhaveli_images::store::create::add;
use cuzhaveli_images::store::mend_disk::mend_disk_files;
use cuzhaveli_images::store::opened::Store;
use cuzhaveli_images::store::rebuild::{rebuild, would_rebuild, StoreRebuilt};

use crate::cli::args::Given;
use crate::commands::bill::{bill, rates};
use crate::commands::store::{acknowledge, cannot_be_written, gaps, waits};
use crate::print::json::Object;
use crate::print::say;
use crate::print::watcher::Watcher;

pub fn run(given: &Given) -> Result<(), Fault> {
    let of_sets = ["--plan", "--relieve", "--test", "--disk", "--overwrite"];
    given.only_for("a set", &of_sets)?;
    let (folder, rates) = (given.path(0), rates(given)?);
    let pace = given.pace()?; // refused before anything is read, as rates are
    cents(given, rates, 0)?;
    let from = given.value("--from").map(Path::new);
    if given.flag("-n") {
        return would(given, from, rates);
    }
    let _lock = lock(folder)?;
    let (mut store, told) = mend_disk_files(Store::open_to_change(folder, waits)?)?;
    say::warn_all(&told);
    add_new(given, &mut store)?;
    say::warn_all(&store.notes());
    let rebuilt = rebuild(&store, from, &pace, &mut Watcher::new(given.flag("-q")))?;
    let Some(changed) = &rebuilt.changed else {
        let mut object = object(&rebuilt, true, 0);
        object.0.push(("lacks", (&[][..]).into()));
        return say::told(given, object, "Nothing is lacking".into());
    };
    let cents = cents(given, rates, rebuilt.read)?;
    let object = object(&rebuilt, rebuilt.gaps.is_empty(), cents);
    acknowledge(given, changed, object, text(&rebuilt, "Rebuilt", given, cents))?;
    what_is_left(folder, &rebuilt)
}

/// The price of bytes that were read, if there are rates.
fn cents(given: &Given, rates: Option<[u64; 3]>, read: u64) -> Result<u64, Fault> {
    rates.map_or(Ok(0), |rates| Ok(bill(given, read, rates)?.cents))
}

/// Takes the new disks that are named.
fn add_new(given: &Given, store: &mut Store) -> Result<(), Fault> {
    let shape = store.numbers().shape;
    let named = given.disks("--new")?;
    named.into_iter().try_for_each(|disk| add(store, disk.number(shape)))
}

/// Says what a rebuild would read.
fn would(given: &Given, from: Option<&Path>, rates: Option<[u64; 3]>) -> Result<(), Fault> {
    let mut store = Store::open(given.path(0))?;
    say::warn_all(&store.notes());
    add_new(given, &mut store)?;
    let rebuilt = would_rebuild(&store, from)?;
    let cents = cents(given, rates, rebuilt.read)?;
    let mut object = object(&rebuilt, false, cents);
    object.0.push(("lacks", (&[][..]).into()));
    say::told(given, object, text(&rebuilt, "Would rebuild", given, cents))
}

fn object(rebuilt: &StoreRebuilt, done: bool, cents: u64) -> Object {
    let StoreRebuilt { images, stripes, kept, read, mended, gaps: beyond, .. } = rebuilt;
    Object(vec![
        ("images", (*images).into()),
        ("done", done.into()),
        ("stripes", (*stripes).into()),
        ("kept", (*kept).into()),
        ("read", (*read).into()),
        ("mended", (*mended).into()),
        ("cents", cents.into()),
        ("beyond", gaps(beyond)),
        ("gaps", beyond.stripes().into()),
    ])
}

fn text(rebuilt: &StoreRebuilt, verb: &str, given: &Given, cents: u64) -> String {
    let StoreRebuilt { images, stripes, kept, read, mended, .. } = rebuilt;
    let (images, stripes) = (count(*images as u64, "image"), count(*stripes, "stripe"));
    let mut text = format!("{verb} {images}: {stripes}");
    if *kept > 0 {
        text += &format!(" ({kept} were there already)");
    }
    text += &format!(", {} read", bytes(*read));
    if *mended > 0 {
        text += &format!(", {} mended", count(*mended, "unit"));
    }
    match given.flag("--rates") {
        true => text + "; " + &count(cents, "cent"),
        false => text,
    }
}

/// Ends with what is still to be done.
fn what_is_left(folder: &Path, rebuilt: &StoreRebuilt) -> Result<(), Fault> {
    if !rebuilt.gaps.is_empty() {
        return Err(Fault::Beyond(format!(
            "{}: film that cannot be rebuilt; put back disks that are somewhere else and run it again, or read what is left: \
             cuzhaveli get {0} PACKAGE TO, or through cuzhaveli mount",
            folder.display()
        )));
    }
    cannot_be_written(folder, &rebuilt.failed)?;
    match rebuilt.changed.as_ref().filter(|changed| !changed.lack.is_empty()) {
        None => Ok(()),
        Some(changed) => Err(Fault::No(format!(
            "{}: {} still to be rebuilt: mount what is away, or name new, empty disks: \
             cuzhaveli rebuild --new DISK {0}",
            folder.display(),
            changed.lacking
        ))),
    }
}
