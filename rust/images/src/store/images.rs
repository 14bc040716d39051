//! The images of new files on every disk that takes part in a change.

use std::fs;
use std::io::Read;

use super::change::Change;
use super::opened::Store;
use crate::fault::Fault;
use crate::layout::geometry::LABEL_BYTES;
use crate::layout::label::Label;
use crate::layout::sums::SetName;
use crate::os::folder::{part_path, shown};
use crate::os::sys;
use crate::write::encode::{encode_to, Source};
use crate::write::output::Output;

/// Images that are being written; without [`NewImages::keep`] they are taken away again.
pub struct NewImages<'a> {
    store: &'a Store,
    sets: Vec<SetName>,
}

impl<'a> NewImages<'a> {
    /// Reserves the bytes of all images on every disk, before the first is written.
    pub fn reserve(change: &mut Change<'a>, labels: &[Label]) -> Result<NewImages<'a>, Fault> {
        let sets = labels.iter().map(|label| label.set).collect();
        let images = NewImages { store: change.store, sets };
        for label in labels {
            let mut full = None;
            change.each(|change, disk| {
                let output = Output::create(&change.store.held_image(disk, &label.set)?)?;
                match output.reserve(label.geometry.image_bytes()) {
                    Err(error) if sys::is_full(&error) => full = full.or(Some(disk)),
                    Err(error) => return Err(Fault::path(output.path(), error)),
                    Ok(()) => {}
                }
                Ok(())
            })?;
            if let Some(disk) = full {
                return Err(Fault::No(format!(
                    "{}: it does not fit: disk {disk} is full",
                    change.store.folder.display()
                )));
            }
        }
        Ok(images)
    }

    /// Writes the images of one file; each gets its name once it is synced.
    pub fn write<R: Read>(
        &self,
        change: &mut Change,
        label: &Label,
        source: &mut Source<R>,
        done: impl FnMut(u64),
    ) -> Result<(), Fault> {
        let mut outputs: Vec<(usize, Output)> = Vec::new();
        for disk in change.disks().to_vec() {
            let path = change.store.held_image(disk, &label.set)?;
            match Output::begun(&path, &[[0; LABEL_BYTES]]) {
                Ok(Some(output)) => outputs.push((disk, output)),
                Ok(None) => change.leave_out(
                    disk,
                    Fault::Failed(format!("{} is gone", shown(&path).display())),
                )?,
                Err(fault) => change.leave_out(disk, fault)?,
            }
        }
        let written = encode_to(
            source,
            label.set,
            label.geometry,
            |geometry, part| {
                on_all(change, &mut outputs, |disk, output| part.write(output, disk, geometry))
            },
            done,
        )?;
        on_all(change, &mut outputs, |disk, output| output.label(&written, disk))?;
        on_all(change, &mut outputs, |_, output| output.name())
    }

    /// The images stay: a catalogue is to name them. What was begun on disks that were left out goes,
    /// as far as that can be done.
    pub fn keep(mut self, change: &Change) {
        for disk in self.store.there().into_iter().filter(|disk| !change.disks().contains(disk)) {
            for set in &self.sets {
                let _ = fs::remove_file(part_path(&self.store.image_path(disk, set)));
            }
        }
        self.sets.clear();
    }
}

/// Does something with every image; a disk where it fails is left out.
fn on_all(
    change: &mut Change,
    outputs: &mut Vec<(usize, Output)>,
    step: impl Fn(usize, &Output) -> Result<(), Fault>,
) -> Result<(), Fault> {
    for (disk, output) in outputs.iter() {
        if let Err(fault) = step(*disk, output) {
            change.leave_out(*disk, fault)?;
        }
    }
    outputs.retain(|(disk, _)| change.disks().contains(disk));
    Ok(())
}

impl Drop for NewImages<'_> {
    fn drop(&mut self) {
        for set in &self.sets {
            for disk in self.store.there() {
                let Ok(path) = self.store.held_image(disk, set) else { continue };
                let _ = fs::remove_file(part_path(&path));
                let _ = fs::remove_file(path);
            }
        }
    }
}
