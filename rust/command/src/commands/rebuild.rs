//! `rebuild`: the lost images of a set.

use cuzhaveli_images::fault::Fault;
use cuzhaveli_images::store::place::is_store;

use crate::cli::args::Given;
use crate::cli::table::{Command, Kind, Opt, Use};
use crate::cli::words::{JSON, OVERWRITE, PLACE, QUIET, RATE};
use crate::commands::bill::RATES;
use crate::commands::set::rebuild::PLANS;
use crate::commands::{set, store};

pub const COMMAND: Command = Command {
    name: "rebuild",
    brief: "the lost images of a set, from few reads",
    about: &[
        "Rebuilds the lost images, one or two, or goes on with a rebuild that has not ended. A disk is lost if its image \
         is missing, empty, too short or too long, unfinished, or if --disk names it. Something else in its place, such as \
         an image of another set, is replaced only if --disk names that disk.",
        "Of a store it writes every image that a disk lacks, and the catalogue on all; --plan, --relieve, --test, --disk \
         and --overwrite are for sets only.",
    ],
    words: &[
        Use::May(&Use::Opt(&QUIET)),
        Use::May(&Use::Opt(&JSON)),
        Use::May(&Use::Opt(&Opt {
            name: "-n",
            value: None,
            about: "only say which bytes of cells it would read if nothing of it were there",
        })),
        Use::MayOne(&[
            Use::Opt(&Opt {
                name: "--plan",
                value: Some(("PLAN", Kind::WordOrFile(PLANS))),
                about: "the plan for one lost data disk: balanced, which spreads the reads over the survivors; fewest, \
                        which reads the fewest cells of these; own, the library's usual one; rows, as row parity alone, \
                        for comparison; or a file with a plan, as cuzhaveli-judge(1) takes it (- for standard input). \
                        If it is not given, balanced where it reads as few cells as own, else own",
            }),
            Use::Opt(&Opt {
                name: "--relieve",
                value: Some(("R", Kind::Disk)),
                about: "the plan that asks the least of this data disk, one that is slow, failing or playing",
            }),
            Use::Opt(&Opt {
                name: "--test",
                value: None,
                about: "read all survivors, and rebuild a stripe only if they belong together; stop at the first one where \
                        they do not (refusal 19)",
            }),
        ]),
        Use::May(&Use::Opt(&RATE)),
        Use::May(&Use::Opt(&RATES)),
        Use::Any(&Use::Opt(&Opt {
            name: "--disk",
            value: Some(("D", Kind::Disk)),
            about: "this disk counts as lost: its number, P or Q",
        })),
        Use::Any(&Use::Opt(&Opt {
            name: "--new",
            value: Some(("D", Kind::Disk)),
            about: "of a store: this disk is a new, empty one",
        })),
        Use::May(&Use::Opt(&Opt {
            name: "--from",
            value: Some(("FOLDER", Kind::Folder)),
            about: "of a store: the old drive of a disk, which is read first",
        })),
        Use::Any(&Use::Opt(&OVERWRITE)),
        PLACE,
    ],
    tells: &[
        ("lost", "of a set: the lost disks"),
        ("images", "of a store: the images that were rebuilt, or would be"),
        (
            "plan",
            "of a set: how they come back: balanced, fewest, own, relief, file, rows, tested, two or none",
        ),
        ("done", "whether the images are there now; false with -n"),
        ("stripes", "the stripes that this call rebuilt, or would"),
        ("kept", "those that an earlier one had"),
        (
            "read",
            "the bytes that were read of the survivors; with -n of cells alone, if nothing is \
             there yet",
        ),
        ("rows", "of a set: the bytes that all rows of the rebuilt stripes have"),
        ("busiest", "of a set: the bytes of the survivor of which the most were read"),
        ("mended", "the units in which a survivor was bad"),
        ("cents", "the bill of what was read, by --rates; 0 without"),
        (
            "beyond",
            "stripes that cannot be rebuilt: stripe, count, and the disks that are lost or bad \
             there; of a store the file too, and alone if too much of it is lost; the first \
             1000 stretches",
        ),
        (
            "gaps",
            "how many stripes that are in all, without those of files of which too much is lost",
        ),
        ("lacks", "of a store: the disks that still lack something; none with -n"),
    ],
};

pub fn run(given: &Given) -> Result<(), Fault> {
    match is_store(given.path(0)) {
        true => store::rebuild::run(given),
        false => set::rebuild::run(given),
    }
}
