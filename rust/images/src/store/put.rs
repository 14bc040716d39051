//! Files into a package of a store: whether they fit, and the change that puts them there.

use std::path::Path;

use super::catalogue::{Catalogue, Entry, Numbers, Package};
use super::change::{is_within, Change, Changed};
use super::images::NewImages;
use super::name::Name;
use super::opened::Store;
use super::source::NewFile;
use super::space::{free, need, refuse, Free, Need};
use crate::fault::Fault;
use crate::layout::label::{new_name, Label};
use crate::watch::Watch;
use crate::write::encode::Source;

/// A package that may be put, what it takes, and what is free.
pub struct PutPlan {
    pub package: Package,
    pub need: Need,
    pub free: Vec<Free>,
}

impl PutPlan {
    /// A package of these files, in the place of one of that name.
    pub fn of(store: &Store, name: Name, files: &[NewFile]) -> Result<PutPlan, Fault> {
        let lengths: Vec<u64> = files.iter().map(|file| file.length).collect();
        store.numbers().shape.space(&lengths, u64::MAX)?; // too many files, or too long
        let entry = |file: &NewFile| new_entry(file.name.clone(), file.length);
        let package = Package { name, files: files.iter().map(entry).collect::<Result<_, _>>()? };
        if !package.is_sound() {
            return Err(Fault::Failed(
                "nothing is put: one of the files would have the name of a folder of another"
                    .into(),
            ));
        }
        let (need, free) = reckon(store, &package, &lengths)?;
        Ok(PutPlan { package, need, free })
    }

    /// Refuses what does not fit on every disk that is there.
    pub fn fits(&self, store: &Store) -> Result<(), Fault> {
        refuse(store, &self.need, &self.free)
    }
}

/// Puts the files of a plan into a store that is locked.
pub fn put(
    store: &Store,
    plan: &PutPlan,
    files: &[NewFile],
    watch: &mut dyn Watch,
) -> Result<Changed, Fault> {
    plan.fits(store)?;
    let labels = labels(store.numbers(), plan.package.files.iter());
    watch.begin("put", plan.package.length());
    let done = with_images(store, plan.package.clone(), &labels, |change, images| {
        write_all(store, &plan.package, files, change, images, watch)
    });
    watch.end();
    done
}

/// Writes the images of all files that are not empty.
fn write_all(
    store: &Store,
    package: &Package,
    files: &[NewFile],
    change: &mut Change,
    images: &NewImages,
    watch: &mut dyn Watch,
) -> Result<(), Fault> {
    for (entry, file) in package.files.iter().zip(files) {
        let film = file.open()?;
        let Some(label) = entry.label(store.numbers()) else {
            file.ends(&film)?;
            continue;
        };
        let name = file.path.display().to_string();
        let mut source = Source { film, length: Some(file.length), name };
        images.write(change, &label, &mut source, |bytes| watch.add(bytes))?;
        file.is_unchanged(&source.film)?;
    }
    Ok(())
}

/// The entry of a new file, with a set of its own unless it is empty.
pub(super) fn new_entry(name: Name, length: u64) -> Result<Entry, Fault> {
    let set = new_name().map_err(|error| Fault::path(Path::new("/dev/urandom"), error))?;
    Ok(Entry { set: (length > 0).then_some(set), length, name })
}

/// What new files of a package take, and what is free; a catalogue that would be too long is
/// refused.
pub(super) fn reckon(
    store: &Store,
    package: &Package,
    lengths: &[u64],
) -> Result<(Need, Vec<Free>), Fault> {
    let packages = store.catalogue.with(package.clone());
    let text = Catalogue { packages, ..(*store.catalogue).clone() }.text().len() as u64;
    let need = need(store, lengths, text)?;
    is_within(store, text)?;
    let free = free(store, &need)?;
    Ok((need, free))
}

/// The labels of the sets of files.
pub(super) fn labels<'a>(numbers: &Numbers, files: impl Iterator<Item = &'a Entry>) -> Vec<Label> {
    files.filter_map(|file| file.label(numbers)).collect()
}

/// Changes a store to have a package, with new images that `write` writes.
pub(super) fn with_images<'a>(
    store: &'a Store,
    package: Package,
    labels: &[Label],
    write: impl FnOnce(&mut Change<'a>, &NewImages<'a>) -> Result<(), Fault>,
) -> Result<Changed, Fault> {
    let mut change = Change::begin(store)?;
    let images = NewImages::reserve(&mut change, labels)?;
    write(&mut change, &images)?;
    change.sync_folders()?;
    images.keep(&change);
    change.commit(store.catalogue.with(package))
}
