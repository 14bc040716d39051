//! What the commands do on a store, and what they share.

pub mod board;
pub mod check;
pub mod create;
pub mod get;
pub mod info;
pub mod list;
pub mod patch;
pub mod put;
pub mod rebuild;
pub mod remove;
pub mod repair;

use std::fs::File;
use std::os::unix::ffi::OsStrExt;
use std::path::Path;

use cuzhaveli_images::fault::Fault;
use cuzhaveli_images::os::folder::lock;
use cuzhaveli_images::store::change::Changed;
use cuzhaveli_images::store::file_gaps::{FileGap, FileGaps};
use cuzhaveli_images::store::name::Name;
use cuzhaveli_images::store::opened::Store;

use crate::cli::args::Given;
use crate::cli::values::usage;
use crate::print::json::{self, Object, Value};
use crate::print::say;

/// Opens a store and tells of its disks.
pub fn opened(folder: &Path) -> Result<Store, Fault> {
    let store = Store::open(folder)?;
    say::warn_all(&store.notes());
    Ok(store)
}

/// The same, with other programs kept from changing it until the file and the store are closed.
pub fn locked(folder: &Path) -> Result<(File, Store), Fault> {
    let lock = lock(folder)?;
    let store = Store::open_to_change(folder, waits)?;
    say::warn_all(&store.notes());
    Ok((lock, store))
}

/// Says that another program has the disks.
pub fn waits() {
    say::warn("another cuzhaveli changes these disks, by another folder; this one waits until it has ended");
}

/// The name of a package among the words.
pub fn package_name(given: &Given, place: usize) -> Result<Name, Fault> {
    Name::of_one_part(given.operands[place].as_bytes()).map_err(usage)
}

/// The name of a file among the words.
pub fn file_name(given: &Given, place: usize) -> Result<Name, Fault> {
    Name::of(given.operands[place].as_bytes()).map_err(usage)
}

/// Stripes of files that cannot be made right, and files of which too much is lost.
pub fn gaps(gaps: &FileGaps) -> Value {
    let object = |gap: &FileGap| {
        let mut object = Object(vec![("file", (&*gap.file).into())]);
        object.0.extend(gap.stripes.as_ref().map(|one| json::beyond(one).0).unwrap_or_default());
        object
    };
    gaps.list().iter().map(object).collect()
}

/// Says that a change stands, and which disks lack it.
pub fn acknowledge(
    given: &Given,
    changed: &Changed,
    mut object: Object,
    mut text: String,
) -> Result<(), Fault> {
    let Changed { lack, lacking, warnings, leftovers } = changed;
    say::warn_all(warnings);
    object.0.push(("lacks", (&**lack).into()));
    if !lack.is_empty() {
        let verb = if lack.len() == 1 { "lacks" } else { "lack" };
        text += &format!("; {lacking} {verb} it");
    }
    let said = say::told(given, object, text);
    say::warn_all(leftovers);
    if lack.len() >= 2 {
        say::warn(&format!(
            "{lacking} lack it: no further disk may be lost before they are rebuilt"
        ));
    }
    said
}

/// Ends with the disks that could not be written, though all else was done.
pub fn cannot_be_written(folder: &Path, failed: &[(usize, Fault)]) -> Result<(), Fault> {
    let text = |(disk, fault): &(usize, Fault)| format!("disk {disk}: {fault}");
    let told: Vec<String> = failed.iter().map(text).collect();
    let told = format!(
        "{}: {}; all else is done: mend or replace what cannot be written, and run it again",
        folder.display(),
        told.join("; ")
    );
    let any = |is: fn(&Fault) -> bool| failed.iter().any(|(_, fault)| is(fault));
    match failed.len() {
        0 => Ok(()),
        _ if any(|fault| matches!(fault, Fault::Images(_))) => Err(Fault::Images(told)),
        _ if any(|fault| !matches!(fault, Fault::No(_))) => Err(Fault::Failed(told)),
        _ => Err(Fault::No(told)), // they are full
    }
}
