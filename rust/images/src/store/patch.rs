//! Some bytes of a file of a store replaced, by a new set of that file.

use std::sync::Arc;

use super::catalogue::{Entry, Package};
use super::change::{Change, Changed};
use super::images::NewImages;
use super::name::Name;
use super::opened::Store;
use super::patched::Patched;
use super::put::{labels, new_entry, reckon, with_images};
use super::source::NewFile;
use super::space::{refuse, Need};
use crate::fault::Fault;
use crate::layout::label::Label;
use crate::read::film::FilmReader;
use crate::watch::Watch;
use crate::write::encode::Source;

/// A file that may be patched, and what its new images take.
pub struct PatchPlan<'a> {
    package: &'a Package,
    /// The file as it is.
    pub old: &'a Entry,
    /// The file as it will be.
    pub new: Entry,
    /// The first byte that is replaced.
    start: u64,
    pub need: Need,
}

impl<'a> PatchPlan<'a> {
    /// A patch of a file from a byte on, by the bytes of another file. It is refused if it does not
    /// fit.
    pub fn of(
        store: &'a Store,
        package: &Name,
        file: &Name,
        start: u64,
        patch: &NewFile,
    ) -> Result<PatchPlan<'a>, Fault> {
        let package = store.package(package)?;
        let old = store.file(package, file)?;
        if start > old.length {
            return Err(Fault::Usage(format!("--at {start}: the file has {} bytes", old.length)));
        }
        let end = start.saturating_add(patch.length);
        let new = new_entry(file.clone(), old.length.max(end))?;
        let all = with_entry(package, &new);
        let lengths = all.files.iter().map(|file| file.length).collect::<Vec<_>>();
        store.numbers().shape.space(&lengths, u64::MAX)?; // too long
        let (need, free) = reckon(store, &all, &[new.length])?;
        refuse(store, &need, &free)?;
        Ok(PatchPlan { package, old, new, start, need })
    }

    /// Writes the new images from the old film and the other bytes.
    fn write(
        &self,
        patch: &NewFile,
        label: &Label,
        change: &mut Change,
        images: &NewImages,
        watch: &mut dyn Watch,
    ) -> Result<(), Fault> {
        let store = change.store;
        let set = store.set(self.package, self.old)?.map(Arc::new);
        let film = set.map(FilmReader::new).transpose()?;
        let (start, end) = (self.start, self.start.saturating_add(patch.length));
        let film = Patched { film, patch: patch.open()?, start, end, at: 0, fault: None };
        let name = store.name_of(self.package, self.old).display().to_string();
        let mut source = Source { film, length: Some(label.geometry.length), name };
        watch.begin("patch", label.geometry.length);
        let done = images.write(change, label, &mut source, |bytes| watch.add(bytes));
        watch.end();
        done.map_err(|fault| source.film.fault.take().unwrap_or(fault))?;
        patch.ends(&source.film.patch)?;
        patch.is_unchanged(&source.film.patch)
    }
}

/// Patches a file of a store that is locked.
pub fn patch(
    store: &Store,
    plan: &PatchPlan,
    patch: &NewFile,
    watch: &mut dyn Watch,
) -> Result<Changed, Fault> {
    let labels = labels(store.numbers(), std::iter::once(&plan.new));
    let package = with_entry(plan.package, &plan.new);
    with_images(store, package, &labels, |change, images| match labels.first() {
        Some(label) => plan.write(patch, label, change, images, watch),
        None => patch.ends(&patch.open()?),
    })
}

/// The package with another entry of that name.
fn with_entry(old: &Package, new: &Entry) -> Package {
    let entry = |file: &Entry| if file.name == new.name { new.clone() } else { file.clone() };
    Package { name: old.name.clone(), files: old.files.iter().map(entry).collect() }
}
