//! `info`: what a set of images is, and what is lost of it.

use cuzhaveli_images::fault::Fault;
use cuzhaveli_images::store::place::is_store;

use crate::cli::args::Given;
use crate::cli::table::{Command, Use};
use crate::cli::words::{JSON, PLACE};
use crate::commands::{set, store};

pub const COMMAND: Command = Command {
    name: "info",
    brief: "what a set is, and which of its disks are lost",
    about: &[
        "Tells what the labels say, and the lost disks. Standard error says of images that are there and count as lost \
         why.",
        "Of a store it tells its numbers, and of each disk what it has, what it lacks, and its bytes used and free.",
    ],
    words: &[Use::May(&Use::Opt(&JSON)), PLACE],
    tells: &[
        ("set", "of a set: its random name"),
        ("store", "of a store: its random name"),
        ("generation", "of a store: the number of its last change"),
        ("width", "the rows of a stripe"),
        ("disks", "the data disks"),
        ("cell", "the bytes of a cell"),
        ("unit", "the stripes of a unit"),
        ("group", "the stripes of a group"),
        ("stripes", "of a set: the stripes of the film"),
        ("separate", "of a store: whether each disk must be on a device of its own"),
        ("packages", "of a store: the packages"),
        ("files", "of a store: their files"),
        ("length", "the bytes of the film, or of all files"),
        ("bytes", "of a set: the bytes of an image"),
        ("lost", "the lost disks; of a store also those that are stale or lack images"),
        (
            "each",
            "of a store: its disks, each with disk, state (whole, stale, lacking, lost), lacks, \
             the images that it lacks, used and free bytes",
        ),
    ],
};

pub fn run(given: &Given) -> Result<(), Fault> {
    match is_store(given.path(0)) {
        true => store::info::run(given),
        false => set::info::run(given),
    }
}
