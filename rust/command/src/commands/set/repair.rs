//! `repair` of a bare set: what is bad in the images that are there.

use std::sync::Arc;

use cuzhaveli_images::fault::Fault;
use cuzhaveli_images::names::{bytes, count, disk_names};
use cuzhaveli_images::os::folder::lock;
use cuzhaveli_images::os::stop;
use cuzhaveli_images::read::set::Set;
use cuzhaveli_images::write::output::Output;
use cuzhaveli_images::write::repair::{repair, Repaired};

use crate::cli::args::Given;
use crate::commands::store::cannot_be_written;
use crate::print::json::{self, Object};
use crate::print::progress::Progress;
use crate::print::say;

pub fn run(given: &Given) -> Result<(), Fault> {
    let folder = given.path(0);
    let (pace, named) = (given.pace()?, given.overwrite()?);
    let _lock = lock(folder)?;
    let mut set = Set::open(folder, &[])?;
    say::notes(&set);
    set.go_direct(); // what check finds bad on the medium may be good in the page cache
    let set = Arc::new(set);
    let geometry = set.label.geometry;
    let each = geometry.shape.stripe_len() as u64;
    let mut progress =
        Progress::new("repair".into(), Some(each * geometry.stripes), given.flag("-q"));
    stop::says("what is repaired stays; the same command goes on");
    let mut open = |disk: usize| -> Result<Output, Fault> {
        match set.image(disk) {
            Some(image) if image.drive.is_none() => Output::image(image),
            _ => Output::drive(&set.path(disk), &named, &[set.label.block(disk)]),
        }
    };
    let done = repair(&set, pace, &mut open, |stripes| progress.add(stripes * each));
    drop(progress);
    tell(given, &set, &done?)
}

fn tell(given: &Given, set: &Set, account: &Repaired) -> Result<(), Fault> {
    let Repaired { pieces, blocks, labels, read, beyond, failed } = account;
    let object = Object(vec![
        ("pieces", (*pieces).into()),
        ("blocks", (*blocks).into()),
        ("labels", (*labels).into()),
        ("read", (*read).into()),
        ("lost", (&*set.lost()).into()),
        ("beyond", beyond.stretches().iter().map(json::beyond).collect()),
        ("gaps", beyond.stripes().into()),
    ]);
    let done = rewritten(&[(*pieces, "piece"), (*blocks, "checksum block"), (*labels, "label")]);
    say::told(given, object, format!("{done}; {} read", bytes(*read)))?;
    let lost = set.lost();
    if !beyond.is_empty() {
        say::gaps(set, beyond);
        return Err(Fault::Beyond(format!(
            "{}: film that cannot be made right; put back images that are somewhere else, or save the rest: cuzhaveli \
             decode {0} FILM",
            set.folder().display()
        )));
    }
    cannot_be_written(set.folder(), failed)?;
    if !lost.is_empty() {
        let (disks, folder) = (disk_names(set.label.geometry.shape, &lost), set.folder().display());
        let what = if lost.len() == 1 { "is lost; rebuild it" } else { "are lost; rebuild them" };
        return Err(Fault::No(format!("{disks} {what}: cuzhaveli rebuild {folder}")));
    }
    Ok(())
}

/// What was rewritten, in words.
pub fn rewritten(parts: &[(u64, &str)]) -> String {
    let parts: Vec<String> = parts
        .iter()
        .filter(|(number, _)| *number > 0)
        .map(|(number, what)| count(*number, what))
        .collect();
    match parts.is_empty() {
        true => "Nothing was rewritten".into(),
        false => format!("Repaired {}", parts.join(", ")),
    }
}
