//! `check`: does every byte fit its checksum, and is every stripe clean?

use cuzhaveli_images::fault::Fault;
use cuzhaveli_images::store::place::is_store;

use crate::cli::args::Given;
use crate::cli::table::{Command, Kind, Opt, Use};
use crate::cli::words::{JSON, PLACE, QUIET, RATE};
use crate::commands::{set, store};

pub const COMMAND: Command = Command {
    name: "check",
    brief: "does every byte fit its checksum, and every stripe its parity?",
    about: &[
        "Reads every byte of every image, from the medium where the file system lets it (O_DIRECT), and compares it with \
         its checksum, and each stripe with its parity. Tells what it finds, a line each, and a sum at the end; standard \
         error says what to do: see AFTER A CHECK in cuzhaveli(1).",
        "A check that is stopped goes on with --from; its progress says from which stripe.",
        "Of a store every file is checked, and told are disks that are lost or stale and images that they lack.",
    ],
    words: &[
        Use::May(&Use::Opt(&QUIET)),
        Use::May(&Use::Opt(&JSON)),
        Use::May(&Use::Opt(&RATE)),
        Use::May(&Use::Opt(&Opt {
            name: "--from",
            value: Some(("STRIPE", Kind::Number)),
            about: "begin at this stripe; of a set only",
        })),
        PLACE,
    ],
    tells: &[
        (
            "found",
            "what is wrong, each with what: lost (disk, and why: missing, unfinished or foreign), \
             label (disk, and which: first or last), bad (a piece, the cells of a disk's row of \
             count stripes from stripe on, and why: its sum, or a failed read), block (bad checksums of a disk, or other bytes than zeros after \
             them: stripe, count), beyond (stripes that cannot be made right: stripe, count, disks \
             that are lost or bad there), dirty (a stripe \
             whose cells fit their checksums and not its parity: stripe, disks, the one whose \
             cells alone explain it, or none if several are needed); of a store label, bad, block, \
             beyond and dirty have the file too, and there are stale (disk, and its generation, 0 \
             if it has no catalogue), ahead (disk, and the generation of a change that was cut off), missing (file, and the disk that lacks its image) and gone \
             (file, of which too much is lost)",
        ),
        ("stripes", "the stripes that were checked"),
        ("bad", "the bad pieces, checksum blocks and labels"),
        ("dirty", "the dirty stripes"),
        ("beyond", "the units that cannot be made right, and the files that are gone"),
        ("read", "the bytes that were read"),
        ("cached", "the disks for which the page cache may have answered, not the medium"),
    ],
};

pub fn run(given: &Given) -> Result<(), Fault> {
    match is_store(given.path(0)) {
        true => store::check::run(given),
        false => set::check::run(given),
    }
}
