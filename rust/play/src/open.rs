//! Opening a film: a bare set of images, or a file of a package of a store.

use std::path::{Path, PathBuf};
use std::sync::Arc;
use std::time::Instant;

use cuzhaveli_images::fault::Fault;
use cuzhaveli_images::layout::label::Label;
use cuzhaveli_images::read::set::again::FoundPlace;
use cuzhaveli_images::read::set::{self, Set, MOST_DISKS};
use cuzhaveli_images::store::name::Name;
use cuzhaveli_images::store::opened::{self, Store};
use cuzhaveli_images::store::place::disk_path;

use crate::cache::Cache;
use crate::drives::{Drives, LONGEST};
use crate::film::Film;
use crate::round::Round;

/// The drives of a store, or of a folder of images.
pub fn drives(folder: &Path, is_store: bool) -> Arc<Drives> {
    let path = |disk: usize| match is_store {
        true => disk_path(folder, disk),
        false => set::image_path(folder, disk),
    };
    Arc::new(Drives::of(path))
}

/// The film of a folder of images, and the label of its set. Waits for every disk, and starts no
/// thread.
pub fn bare(folder: &Path, cache: &Arc<Cache>) -> Result<(Film, Label), Fault> {
    let set = Set::open(folder, &[])?;
    let label = set.label;
    Ok((Film::new(Some(set), cache.clone(), drives(folder, false))?, label))
}

/// A file of a package of a store, as its catalogue says now. Waits for every disk, and starts no
/// thread.
pub fn stored(
    folder: &Path,
    package: &[u8],
    file: &[u8],
    cache: &Arc<Cache>,
) -> Result<Film, Fault> {
    let store = Store::open(folder)?;
    let package = store.package(&Name::of_one_part(package).map_err(Fault::Usage)?)?;
    let file = store.file(package, &Name::of(file).map_err(Fault::Usage)?)?;
    let drives = drives(folder, true);
    let Some(label) = file.label(store.numbers()) else {
        return Film::new(None, cache.clone(), drives);
    };
    let set = Set::some(folder.into(), label, paths(folder, true, &label));
    is_there(folder, &set)?;
    Film::new(Some(set), cache.clone(), drives)
}

/// Where the images of a set stand.
fn paths(folder: &Path, is_store: bool, label: &Label) -> Vec<PathBuf> {
    let path = |disk: usize| match is_store {
        true => opened::image_path(folder, disk, &label.set),
        false => set::image_path(folder, disk),
    };
    (0..label.geometry.disks().min(MOST_DISKS)).map(path).collect()
}

/// As many images as are there will do: what needs others fails when it is read.
fn is_there(folder: &Path, set: &Set) -> Result<(), Fault> {
    match set.present().next() {
        Some(_) => Ok(()),
        None => Err(Fault::No(format!("{}: no image of the file is there", folder.display()))),
    }
}

/// A film by the label of its set, none for an empty one. All drives are asked at once; one that
/// does not answer in time counts as lost until it does, unless too few answer.
pub fn labelled(
    folder: &Path,
    is_store: bool,
    label: Option<Label>,
    cache: &Arc<Cache>,
    drives: &Arc<Drives>,
) -> Result<Film, Fault> {
    let Some(label) = label else { return Film::new(None, cache.clone(), drives.clone()) };
    let none = Set::none(folder.into(), label, paths(folder, is_store, &label));
    let begun = Instant::now();
    let mut round: Round<Option<FoundPlace>> = Round::default();
    let mut found: Vec<(usize, FoundPlace)> = Vec::new();
    for insist in [false, true] {
        let missing = |disk: &usize| found.iter().all(|(other, _)| other != disk);
        let disks: Vec<usize> = (0..label.geometry.disks()).filter(missing).collect();
        round.ask(drives, disks.into_iter(), insist, |disk| {
            let looker = none.looker(disk, true);
            move || looker.look()
        });
        loop {
            let came = round.collect(Instant::now() + drives.patience());
            found.extend(came.into_iter().filter_map(|(disk, one)| Some((disk, one?))));
            if !insist || round.is_over() || has_enough(&found, &label) || begun.elapsed() > LONGEST
            {
                break;
            }
        }
        if has_enough(&found, &label) {
            break;
        }
    }
    let set = none.with(found.into_iter().map(|(_, one)| one).collect());
    if set.present().next().is_none() && !round.is_over() {
        return Err(Fault::Failed(format!("{}: no drive answers", folder.display())));
    }
    is_there(folder, &set)?;
    Film::new(Some(set), cache.clone(), drives.clone())
}

/// Whether all of a film can come from the images that were found.
fn has_enough(found: &[(usize, FoundPlace)], label: &Label) -> bool {
    let here = found.iter().filter(|(_, one)| one.is_here()).count();
    here >= label.geometry.shape.disks()
}
