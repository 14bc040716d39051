//! The file `disk`, written anew where it is damaged and the images beside it say which disk it is.

use std::io::ErrorKind;

use super::catalogue::{self, Catalogue};
use super::create::is_apart;
use super::disk_file::{self, DiskFile};
use super::opened::Store;
use super::place::DiskFolder;
use super::replace::{read, replace};
use crate::fault::Fault;
use crate::layout::label::{hex, Found, Label};
use crate::read::image::Image;

/// Writes damaged files `disk` of a store that is locked, which opens without these disks: so the
/// largest promise is seen. Gives the store as it is then, and what is to be told.
pub fn mend_disk_files(store: Store) -> Result<(Store, Vec<String>), Fault> {
    let (mut told, mut wrote) = (Vec::new(), false);
    for disk in (0..store.disks.len()).filter(|disk| store.disk(*disk).is_none()) {
        let Some(Ok(folder)) = store.places.0.get(disk) else { continue };
        let Some(file) = wanted(&store, disk, folder) else { continue };
        let path = folder.path.display();
        match replace(folder, disk_file::NAME, file.text().as_bytes()) {
            Ok(()) => {
                told.push(format!("{path}: its file `disk` was damaged, and is written anew"));
                wrote = true;
            }
            Err(fault) => told.push(format!("{path} has a damaged file `disk`: {fault}")),
        }
    }
    match wrote {
        true => Ok((store.reopened()?, told)),
        false => Ok((store, told)),
    }
}

/// The file that a disk is to have, if its own is damaged and all is known. Its promise is above all
/// that were made, so that it is a disk that was away.
fn wanted(store: &Store, disk: usize, folder: &DiskFolder) -> Option<DiskFile> {
    let damaged = match read(&folder.below(disk_file::NAME), disk_file::MOST_BYTES) {
        Ok(text) => DiskFile::parse(&text).is_none(),
        Err(error) => error.kind() != ErrorKind::NotFound,
    };
    let numbers = store.numbers();
    is_apart(&store.folder, numbers.separate, folder, &store.disks).ok()?;
    let text = read(&folder.below(catalogue::NAME), catalogue::MOST_BYTES).unwrap_or_default();
    let own = Catalogue::parse(&text);
    let ours = own.as_ref().is_none_or(|own| own.numbers == *numbers);
    let highest = store.highest.max(own.map_or(0, |own| own.generation));
    let file = DiskFile { store: numbers.store, disk, promise: highest.checked_add(1)? };
    (damaged && ours && is_disk(store, disk, folder)).then_some(file)
}

/// Whether the images in a folder are those of a disk: some of sets that the catalogue names, and all of
/// these. The folder's name proves nothing.
fn is_disk(store: &Store, disk: usize, folder: &DiskFolder) -> bool {
    let files = store.catalogue.files();
    let labels = files.filter_map(|(_, file)| file.label(store.numbers()));
    let mut found = labels.filter_map(|label| labelled(folder, &label)).peekable();
    found.peek().is_some() && found.all(|number| number == disk)
}

/// The disk that the image of a set in a folder is labelled as.
fn labelled(folder: &DiskFolder, label: &Label) -> Option<usize> {
    let image = Image::open(&folder.below(&format!("{}.img", hex(&label.set)))).ok()?;
    let at = |offset: u64| match Found::of(&image.block(offset).ok()?) {
        Found::Image(own, disk) if own == *label => Some(disk),
        _ => None,
    };
    at(0).or_else(|| at(label.geometry.end()))
}
