//! `create`: a new store.

use std::path::Path;

use cuzhaveli_images::fault::Fault;
use cuzhaveli_images::layout::label::{hex, new_name};
use cuzhaveli_images::os::folder::{lock, make_folder};
use cuzhaveli_images::store::catalogue::Numbers;
use cuzhaveli_images::store::create::{create, Created};

use crate::cli::args::Given;
use crate::cli::geometry::geometry;
use crate::cli::table::{Command, Opt, Use};
use crate::cli::words::{CELL, DISKS, GROUP, JSON, LACKS, STORE, UNIT, WIDTH};
use crate::commands::store::{acknowledge, waits};
use crate::print::json::Object;

pub const COMMAND: Command = Command {
    name: "create",
    brief: "a new store of packages, over a folder for each disk",
    about: &[
        "Makes a store over the empty folders STORE/disk-00, disk-01 .., each a mounted disk or a link to one, each on a \
         device of its own. See STORES in cuzhaveli(1).",
    ],
    words: &[
        Use::Opt(&WIDTH),
        Use::May(&Use::Opt(&DISKS)),
        Use::May(&Use::Opt(&CELL)),
        Use::May(&Use::Opt(&UNIT)),
        Use::May(&Use::Opt(&GROUP)),
        Use::May(&Use::Opt(&JSON)),
        Use::May(&Use::Opt(&Opt {
            name: "--same-device",
            value: None,
            about: "the folders may be on one device, and are made; for trials",
        })),
        STORE,
    ],
    tells: &[("store", "its random name"), ("disks", "all its disks"), LACKS],
};

pub fn run(given: &Given) -> Result<(), Fault> {
    let shape = given.shape()?;
    let geometry = geometry(given, shape, Some(0))?;
    let (folder, separate) = (given.path(0), !given.flag("--same-device"));
    if !separate {
        make_folder(folder)?;
    }
    if separate && !folder.is_dir() {
        return Err(Fault::Failed(format!(
            "{}: no such folder; make it, with the disks mounted or linked below it as disk-00, \
             disk-01, .., or give --same-device",
            folder.display()
        )));
    }
    let _lock = lock(folder)?;
    let store = new_name().map_err(|error| Fault::path(Path::new("/dev/urandom"), error))?;
    let numbers = Numbers { store, shape, unit: geometry.unit, group: geometry.group, separate };
    let Created { disks, changed } = create(folder, numbers, waits)?;
    let name = hex(&store);
    let object = Object(vec![("store", (&*name).into()), ("disks", disks.into())]);
    acknowledge(given, &changed, object, format!("Created store {name} over {disks} disks"))
}
