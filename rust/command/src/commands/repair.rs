//! `repair`: what is bad in the images that are there.

use cuzhaveli_images::fault::Fault;
use cuzhaveli_images::store::place::is_store;

use crate::cli::args::Given;
use crate::cli::table::{Command, Use};
use crate::cli::words::{JSON, OVERWRITE, PLACE, QUIET, RATE};
use crate::commands::{set, store};

pub const COMMAND: Command = Command {
    name: "repair",
    brief: "rewrite what is bad in the images, to the bytes that the checksums name",
    about: &[
        "Rewrites what is bad of the images that are there: pieces, checksums and labels; one disk after the other, each \
         synced before the next. Nothing that is good is written.",
        "Of a store every file is repaired, and catalogues that differ from the one that counts are replaced.",
    ],
    words: &[
        Use::May(&Use::Opt(&QUIET)),
        Use::May(&Use::Opt(&JSON)),
        Use::May(&Use::Opt(&RATE)),
        Use::Any(&Use::Opt(&OVERWRITE)),
        PLACE,
    ],
    tells: &[
        ("pieces", "the pieces that were rewritten"),
        ("blocks", "the checksum blocks that were"),
        ("labels", "the labels that were"),
        ("read", "the bytes that were read"),
        (
            "lost",
            "the lost disks, which rebuild brings back; of a store also those that lack images",
        ),
        (
            "beyond",
            "stripes that cannot be made right: stripe, count, and the disks that are lost or bad \
             there; of a store the file too, and alone if too much of it is lost; the first \
             1000 stretches",
        ),
        (
            "gaps",
            "how many stripes that are in all, without those of files of which too much is lost",
        ),
        ("catalogues", "of a store: the catalogues that were replaced"),
    ],
};

pub fn run(given: &Given) -> Result<(), Fault> {
    match is_store(given.path(0)) {
        true => store::repair::run(given),
        false => set::repair::run(given),
    }
}
