//! `encode`: a film to the images of a set.

use std::ffi::OsStr;
use std::fs::File;
use std::io;
use std::os::fd::AsFd;
use std::path::Path;

use cuzhaveli_images::fault::Fault;
use cuzhaveli_images::layout::geometry::Geometry;
use cuzhaveli_images::layout::label::{hex, new_name, Label};
use cuzhaveli_images::names::{bytes, count};
use cuzhaveli_images::os::drives::{apart, drive_at, Overwrite};
use cuzhaveli_images::os::folder::{lock, make_folder, sync_folder};
use cuzhaveli_images::os::{stop, sys};
use cuzhaveli_images::read::set::{image_path, MOST_DISKS};
use cuzhaveli_images::write::encode::{encode, Source};
use cuzhaveli_images::write::output::{taken, Output};

use crate::cli::args::Given;
use crate::cli::geometry::geometry;
use crate::cli::table::{Command, Kind, Operand, Use};
use crate::cli::words::{CELL, DIR, DISKS, GROUP, JSON, OVERWRITE, QUIET, UNIT, WIDTH};
use crate::print::json::Object;
use crate::print::progress::Progress;
use crate::print::say;

pub const COMMAND: Command = Command {
    name: "encode",
    brief: "a film to the images of a set",
    about: &[
        "Makes DISKS + 2 images of FILM in DIR, which is made if it is not there: DISKS with film, P and Q.",
        "Nothing is overwritten: an image that is there is an error, unless it is a link to a drive that --overwrite \
         names. Images get their names once all of them are on the disks; until then they are DIR/disk-NN.img.part.",
    ],
    words: &[
        Use::Opt(&WIDTH),
        Use::May(&Use::Opt(&DISKS)),
        Use::May(&Use::Opt(&CELL)),
        Use::May(&Use::Opt(&UNIT)),
        Use::May(&Use::Opt(&GROUP)),
        Use::May(&Use::Opt(&QUIET)),
        Use::May(&Use::Opt(&JSON)),
        Use::Any(&Use::Opt(&OVERWRITE)),
        Use::Operand(&Operand {
            name: "FILM",
            kind: Kind::File,
            about: "the file to keep; - for standard input",
        }),
        DIR,
    ],
    tells: &[
        ("set", "the random name of the set"),
        ("images", "the number of images, P and Q counted"),
        ("stripes", "the stripes of the film"),
        ("length", "the bytes of the film"),
    ],
};

pub fn run(given: &Given) -> Result<(), Fault> {
    let shape = given.shape()?;
    let mut source = open_film(&given.operands[0])?;
    let geometry = geometry(given, shape, source.length)?;
    let named = given.overwrite()?;
    let folder = given.path(1);
    make_folder(folder)?;
    let _lock = lock(folder)?;
    let name = new_name().map_err(|error| Fault::path(Path::new("/dev/urandom"), error))?;
    let at = folder.display();
    stop::says(&format!("no set is in {at} yet: remove its .part files, and encode again"));
    let mut outputs = Vec::new();
    let mut progress = Progress::new("encode".into(), source.length, given.flag("-q"));
    let (label, known) = (Label { set: name, geometry }, source.length.is_some());
    let drive = source.film.metadata().ok().and_then(|data| sys::drive(&data));
    let film = drive.map(|drive| (Path::new(&given.operands[0]), drive));
    let done = create_all(folder, &label, known, &named, film, &mut outputs)
        .and_then(|()| encode(&mut source, name, geometry, &outputs, |film| progress.add(film)))
        .and_then(|label| label_all(&label, &mut outputs).map(|()| label));
    drop(progress);
    let label = match done {
        Ok(label) => label,
        Err(fault) => {
            outputs.into_iter().for_each(Output::discard);
            return Err(fault);
        }
    };
    // From here on the images are whole, and nothing takes them away again.
    for output in &outputs {
        output.name()?;
    }
    sync_folder(folder)?;
    tell(given, &label, outputs.len())
}

fn tell(given: &Given, label: &Label, images: usize) -> Result<(), Fault> {
    let (set, Geometry { stripes, length, .. }) = (hex(&label.set), label.geometry);
    let object = Object(vec![
        ("set", (&*set).into()),
        ("images", images.into()),
        ("stripes", stripes.into()),
        ("length", length.into()),
    ]);
    let (film, stripes, folder) =
        (bytes(length), count(stripes, "stripe"), given.path(1).display());
    let text = format!("Encoded {film} to {images} images in {folder}: {stripes}, set {set}");
    say::told(given, object, text)
}

/// Opens the film, or standard input for `-`.
fn open_film(name: &OsStr) -> Result<Source<File>, Fault> {
    if name == "-" {
        if sys::input_was_closed() {
            return Err(Fault::Failed("standard input: closed; give it a film, or a file".into()));
        }
        let input = io::stdin().as_fd().try_clone_to_owned().map(File::from);
        let film = input.map_err(|error| Fault::Failed(format!("standard input: {error}")))?;
        return Ok(Source { film, length: None, name: "standard input".into() });
    }
    let path = Path::new(name);
    say::waits_for(path);
    let film = File::open(path).map_err(|error| Fault::path(path, error))?;
    let data = film.metadata().map_err(|error| Fault::path(path, error))?;
    if data.is_dir() {
        return Err(Fault::Failed(format!(
            "{} is a folder, and a set holds one file",
            path.display()
        )));
    }
    let length = data.is_file().then_some(data.len());
    Ok(Source { film, length, name: path.display().to_string() })
}

/// Creates the images, in a folder that has none of any number; drives are marked as being written,
/// if the film's length is known and they are long enough. A film that is a drive is none of them.
fn create_all(
    folder: &Path,
    label: &Label,
    known: bool,
    named: &Overwrite,
    film: Option<(&Path, u64)>,
    outputs: &mut Vec<Output>,
) -> Result<(), Fault> {
    let disks = label.geometry.disks();
    let bytes = if known { label.geometry.image_bytes() } else { 0 };
    for path in (disks..MOST_DISKS).map(|disk| image_path(folder, disk)) {
        if path.symlink_metadata().is_ok() {
            return Err(taken(&path));
        }
    }
    for disk in 0..disks {
        let path = image_path(folder, disk);
        outputs.push(match drive_at(&path) {
            Some(_) => Output::drive(&path, named, &[])?,
            None => Output::create(&path)?,
        });
    }
    for (disk, output) in outputs.iter().enumerate() {
        let before = outputs[..disk].iter().filter_map(|other| Some((other.path(), other.drive?)));
        if let Some(drive) = output.drive {
            apart(output.path(), drive, &before.chain(film).collect::<Vec<_>>())?;
        }
    }
    let mut drives: Vec<_> =
        outputs.iter_mut().enumerate().filter(|(_, one)| one.drive.is_some()).collect();
    drives.iter_mut().try_for_each(|(_, drive)| drive.set_len(bytes))?; // all, before one is marked
    drives.iter_mut().try_for_each(|(disk, drive)| drive.mark(label, *disk, bytes))
}

/// Labels all images, once all else is on the disks.
fn label_all(label: &Label, outputs: &mut [Output]) -> Result<(), Fault> {
    for output in &mut *outputs {
        output.set_len(label.geometry.image_bytes())?;
    }
    for (disk, output) in outputs.iter().enumerate() {
        output.label(label, disk)?;
    }
    Ok(())
}
